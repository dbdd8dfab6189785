/* chip.h: a flash chip in memory that can do two things only, program a word and erase a unit, and the step that carries an image to it.
 * The program that includes it says SIZE, LENGTH and MOST, the most steps that are kept.
 */
#ifndef CHIP_H
#define CHIP_H

#include <stddef.h>
#include <stdint.h>
#include <stdio.h>
#include <string.h>

/* In a device these three are the driver; here the chip as it is after each step is kept, for the power to go there. */
static uint8_t chip[LENGTH], after_step[MOST][LENGTH];
static size_t steps;
static int watched;

static void made(void)
{
    if (watched && steps < MOST)
        memcpy(after_step[steps++], chip, LENGTH);
}

static void chip_program(size_t at, uint16_t value)
{
    chip[at] &= (uint8_t)(value & 0xFF);
    chip[at + 1] &= (uint8_t)(value >> 8);
    made();
}

static void chip_erase(size_t unit)
{
    memset(chip + unit * SIZE, 0xFF, SIZE);
    made();
}

/* `image` holds what the chip holds; where the chip can be read like memory, it can be the chip itself. */
static uint8_t image[LENGTH];

/* Makes the one step that leads from image to `next`: where a bit is to be set it is an erase, else a word. */
static void carry(const uint8_t *next)
{
    size_t at = 0;
    while (at < LENGTH && next[at] == image[at])
        at++;
    if (at == LENGTH)
        return;
    for (size_t i = at; i < LENGTH; i++)
        if (next[i] & ~image[i]) {
            chip_erase(i / SIZE);
            memcpy(image, next, LENGTH);
            return;
        }
    at -= at % 2;
    chip_program(at, (uint16_t)(next[at] | next[at + 1] << 8));
    memcpy(image, next, LENGTH);
}

/* The power goes after each step that was kept: what `restart` finds then is what it found before, or the next one. Gives the last, or
 * -1. */
static int cut_after_each_step(int (*restart)(void), const char *what)
{
    int last = 0;
    for (size_t i = 0; i < steps; i++) {
        memcpy(chip, after_step[i], LENGTH);
        int found = restart();
        if (found < last || found > last + 1) {
            printf("power cut after step %zu: %s %d after %s %d\n", i + 1, what, found, what, last);
            return -1;
        }
        last = found;
    }
    return last;
}

#endif
