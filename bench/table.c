/* table save FILE: writes images to measure the table by, and prints a line on each. table count FILE NUMBER WHAT READS: one of `plain` and
   `through`, so many reads each, `judge`, `fill`, `commit`, `commit-through` or `none` on one of them, to be counted. All fill a table
   first, and look for forty files that are there. */
#include <inttypes.h>
#include <stdio.h>
#include <stdlib.h>
#include <string.h>

#include "../include/undernshade_table.h"
#include "crowded.h"
#include "judge.h"
#include "situations.h"

enum { READS = 40 };

static struct situation situations[MOST_SITUATIONS];
static struct image image;
static us_entry table[US_ENTRIES];
static uint32_t file[READS];
static volatile size_t sink;

static void write_image(FILE *out, const struct image *i, const char *name)
{
    printf("%" PRIu32 " x %" PRIu32 "\t%s\n", i->size, i->units, name);
    if (fwrite(i, sizeof *i, 1, out) != 1)
        exit(2);
}

/* The image of the one situation with this call and name. */
static const struct image *of_situation(uint32_t many, enum call call, const char *name)
{
    for (uint32_t i = 0; i < many; i++)
        if (situations[i].call == call && strcmp(situations[i].name, name) == 0)
            return &situations[i].image;
    fputs("table: there is no such situation\n", stderr);
    exit(2);
}

static int save(const char *path)
{
    static const uint32_t shapes[][2] = { { 4096, 16 }, { 1024, 64 }, { 512, 3 } };
    FILE *out = fopen(path, "wb");
    if (out == NULL)
        return 2;
    for (uint32_t k = 0; k < 3; k++) {
        uint32_t many = situations_make(situations, shapes[k][0], shapes[k][1]);
        write_image(out, of_situation(many, READ, "a file that is there"), "in use");
        write_image(out, of_situation(many, COMMIT, "up to eight writes"), "up to eight writes");
    }
    image_erase(&image, 4096, 16);
    crowded_make(image.bytes, image.size, image.units, READS);
    write_image(out, &image, "crowded");
    return fclose(out) == 0 ? EXIT_SUCCESS : 2;
}

/* Fills the table, and finds forty files that are there, the same one more than once where there are fewer. */
static bool prepare(void)
{
    uint32_t found = 0;
    if (us_table_fill(IMAGE(&image), table, US_ENTRIES).number != US_DONE)
        return false;
    for (uint32_t i = 0; i < US_ENTRIES && found < READS; i++)
        if (table[i].state == US_ENTRY_FILE)
            file[found++] = i;
    for (uint32_t i = found; found > 0 && i < READS; i++)
        file[i] = file[i - found];
    return found > 0;
}

enum { WORD_NONE, WORD_PLAIN, WORD_THROUGH, WORD_JUDGE, WORD_FILL, WORD_COMMIT, WORD_COMMIT_THROUGH, WORDS };

/* Every word is compared, so that choosing takes the same for what is counted and for `none`, which is taken off. */
static int chosen(const char *what)
{
    static const char *const words[WORDS] = { "none", "plain", "through", "judge", "fill", "commit", "commit-through" };
    int found = WORDS;
    for (int i = 0; i < WORDS; i++)
        found = strcmp(what, words[i]) == 0 ? i : found;
    return found;
}

static int count(const char *path, const char *number, const char *what, uint32_t reads)
{
    FILE *in = fopen(path, "rb");
    if (in == NULL || fseek(in, atol(number) * (long)sizeof image, SEEK_SET) != 0 || fread(&image, sizeof image, 1, in) != 1 ||
        !prepare() || reads > READS)
        return 2;
    switch (chosen(what)) {
    case WORD_NONE: return EXIT_SUCCESS;
    case WORD_PLAIN:
        for (uint32_t i = 0; i < reads; i++)
            sink += us_read(IMAGE(&image), file[i]).start;
        return EXIT_SUCCESS;
    case WORD_THROUGH:
        for (uint32_t i = 0; i < reads; i++)
            sink += us_table_read(IMAGE(&image), table, US_ENTRIES, file[i]).start;
        return EXIT_SUCCESS;
    case WORD_JUDGE: sink += us_first(IMAGE(&image)); return EXIT_SUCCESS;
    case WORD_FILL: sink += us_table_fill(IMAGE(&image), table, US_ENTRIES).number; return EXIT_SUCCESS;
    case WORD_COMMIT: sink += us_commit(IMAGE(&image), US_ALL).number; return EXIT_SUCCESS;
    case WORD_COMMIT_THROUGH: sink += us_table_commit(IMAGE(&image), table, US_ENTRIES, US_ALL).number; return EXIT_SUCCESS;
    }
    return 2;
}

int main(int argc, char **argv)
{
    if (argc == 3 && strcmp(argv[1], "save") == 0)
        return save(argv[2]);
    if (argc == 6 && strcmp(argv[1], "count") == 0)
        return count(argv[2], argv[3], argv[4], (uint32_t)atoi(argv[5]));
    fputs("usage: table save FILE, or table count FILE NUMBER plain|through|judge|fill|commit|commit-through|none READS\n", stderr);
    return 2;
}
