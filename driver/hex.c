/* hex COUNT SEED: COUNT random files through the proved reader and the second program's, and random images through the two writers. Prints
 * the first differences and what the files came to; the last line is `N passed, M failed`. */
#include <stdbool.h>
#include <stdio.h>
#include <stdlib.h>
#include <string.h>

#include "../include/undernshade_hex.h"
#include "../peer/checks/random.h"
#include "../peer/generators/hex_files.h"
#include "../peer/store/hex.h"

enum { MOST = 65536, ROOM = MOST / 16 * 44 + 12 };

static uint8_t text[HEX_TEXT_ROOM], before[MOST], image[MOST], other[MOST];
static uint8_t written[ROOM + 64], kept[ROOM + 64];
static char due[ROOM + 64];
static uint32_t unit_size, units;
static unsigned long counts[40], passed, failed, done_with_data, whole, blank;

static uint32_t geometry(void)
{
    unit_size = 512u << (random_chance(80) ? 0 : random_below(4));
    uint32_t most = MOST / unit_size < 64 ? MOST / unit_size : 64;
    units = random_chance(90) ? 3 : random_chance(30) ? most : random_between(3, most);
    return unit_size * units;
}

static void judge(bool good, const char *what, unsigned long turn)
{
    if (good) {
        passed++;
        return;
    }
    if (failed++ < 5)
        printf("differs: %s, turn %lu (unit %u, units %u)\n", what, turn, (unsigned)unit_size, (unsigned)units);
}

static void one_file(unsigned long turn)
{
    uint32_t size = geometry(), length = size, given_units = units;
    size_t many = hex_file(text, size);
    if (random_chance(1))
        given_units = random_below(70);
    if (random_chance(1))
        length -= random_below(20);
    for (uint32_t i = 0; i < size; i++)
        before[i] = (uint8_t)random_below(256);
    memcpy(image, before, size);
    memcpy(other, before, size);
    us_hex_report r = us_hex_read(image, length, unit_size, given_units, text, many);
    int number = hex_read(text, many, unit_size, given_units, other, length);
    judge((int)r.number == number && r.length == 0 && memcmp(image, other, size) == 0, "a file", turn);
    judge(r.number == 0 || memcmp(image, before, size) == 0, "a refused file changes the image", turn);
    if (number >= 0 && number < 40)
        counts[number]++;
    done_with_data += number == 0 && memchr(text, '\n', many) != NULL && many > 20;
}

static void one_image(unsigned long turn)
{
    uint32_t size = geometry(), given_units = random_chance(3) ? random_below(70) : units;
    size_t room = US_HEX_ROOM(size), lent = room;
    if (random_chance(5))
        lent -= random_between(1, 20);
    else if (!random_chance(30))
        lent += random_below(64);
    hex_image(image, size);
    if (random_chance(2))
        memset(image, 0xFF, size);
    for (size_t i = 0; i < lent; i++)
        kept[i] = written[i] = (uint8_t)random_below(256);
    us_hex_report r = us_hex_write(image, size, unit_size, given_units, written, lent);
    size_t length = hex_write(image, size, unit_size, given_units, due, lent);
    judge(length ? r.number == 0 && r.length == length && memcmp(written, due, length) == 0 : r.number == 2 && r.length == 0,
          "a written image", turn);
    judge(memcmp(written + r.length, kept + r.length, lent - r.length) == 0, "the buffer behind the text", turn);
    if (!length)
        return;
    whole += size == MOST;
    blank += length == 12;
    for (uint32_t i = 0; i < size; i++)
        other[i] = (uint8_t)random_below(256);
    r = us_hex_read(other, size, unit_size, units, written, length);
    judge(r.number == 0 && memcmp(other, image, size) == 0, "a round trip", turn);
}

int main(int argc, char **argv)
{
    if (argc != 3)
        return 2;
    unsigned long count = strtoul(argv[1], NULL, 10);
    random_seed(strtoul(argv[2], NULL, 10));
    for (unsigned long turn = 0; turn < count; turn++) {
        one_file(turn);
        if (turn % 20 == 0)
            one_image(turn);
    }
    printf("files 0=%lu", counts[0]);
    for (int i = 1; i < 40; i++)
        if (counts[i])
            printf(" %d=%lu", i, counts[i]);
    printf("\nwritten and read again: %lu of 65,536 bytes, %lu all FF\n%lu passed, %lu failed\n", whole, blank, passed, failed);
    return failed > 0;
}
