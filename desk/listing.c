/* listing: what files an image has, as the proved program of the same name prints it. */
#include <stdio.h>

#include "../include/undernshade.h"
#include "desk.h"

static const char help[] =
    "usage: listing <INPUT >OUTPUT\n"
    "Prints which files an image has: a line for each, with its length and handle.\n"
    "INPUT has two lines, the size of a unit and how many there are, and then the image's bytes, for example\n"
    "    { printf 'unit=512\\nunits=3\\n'; cat image; } | listing\n"
    "An image that is not settled, or no image, is refused: OUTPUT has then only refused= and a number (docs/FORMAT.md).\n"
    "It ends with 0 where the listing is written whole, with 1 where the input was refused, and with 2 where the\n"
    "input was not read, the output was not written whole, or there are words on the command line.\n";

enum { FILES = 256, LONGEST_INPUT = 65555 };

static const char *why(uint32_t number)
{
    switch (number) {
    case US_BAD_GEOMETRY: return "the size of a unit, the number of units or the length of the image is not right";
    case US_BAD_IMAGE: return "the image is no store's";
    default: return "a power cut left work to do: mount the image first";
    }
}

int main(int argc, char **argv)
{
    static uint8_t room[LONGEST_INPUT + 1];
    static us_report found[FILES];
    char line[80];
    unsigned files = 0;
    desk_begin(argc, argv, "listing", help);
    struct input in = desk_read(room, LONGEST_INPUT);
    for (uint32_t f = 0; f < FILES; f++) {
        found[f] = us_read(in.rest, in.length, in.size, in.units, f);
        if (found[f].number != US_DONE && found[f].number != US_ABSENT)
            desk_refuse(found[f].number, why(found[f].number));
        files += found[f].number == US_DONE;
    }
    int open = us_read_open(in.rest, in.length, in.size, in.units, 0).number != US_NO_TRANSACTION;
    desk_write(line, (size_t)snprintf(line, sizeof line, "unit=%u\nunits=%u\nopen=%d\nfiles=%u\n", (unsigned)in.size, (unsigned)in.units,
                                      open, files));
    for (uint32_t f = 0; f < FILES; f++) {
        const us_report *r = &found[f];
        if (r->number == US_DONE)
            desk_write(
                line, (size_t)snprintf(line, sizeof line, "file=%u length=%zu at=%zu:%zu\n", (unsigned)f, r->length, r->unit, r->position));
    }
    desk_end(WRITTEN);
}
