/* picture IMAGE SIZE UNITS [CAPTION]: draws an image file as an SVG on standard output. */
#include <errno.h>
#include <stdio.h>
#include <stdlib.h>
#include <string.h>

#include "draw.h"

enum { LARGEST_IMAGE = 65536 };

static uint32_t number(const char *text)
{
    char *end;
    unsigned long value = strtoul(text, &end, 10);
    return text[0] >= '0' && text[0] <= '9' && *end == 0 && value <= LARGEST_IMAGE ? (uint32_t)value : 0;
}

static int fail(const char *path, const char *what)
{
    fprintf(stderr, "picture: %s: %s\n", path, what);
    return 2;
}

int main(int count, char **argument)
{
    static uint8_t image[LARGEST_IMAGE + 1];
    if (count != 4 && count != 5) {
        fputs("usage: picture IMAGE SIZE UNITS [CAPTION] >PICTURE.svg (SIZE 512, 1024, 2048 or 4096; UNITS 3 to 64)\n", stderr);
        return 2;
    }
    uint32_t size = number(argument[2]), units = number(argument[3]);
    if ((size != 512 && size != 1024 && size != 2048 && size != 4096) || units < 3 || units > MOST_UNITS || size * units > LARGEST_IMAGE)
        return fail(argument[1],
                    "no geometry of a store: SIZE is 512, 1024, 2048 or 4096, UNITS 3 to 64, SIZE x UNITS at most "
                    "65536");
    FILE *in = fopen(argument[1], "rb");
    if (in == NULL)
        return fail(argument[1], strerror(errno));
    size_t length = fread(image, 1, sizeof image, in);
    fclose(in);
    if (length != (size_t)size * units)
        return fail(argument[1], "its length is not SIZE x UNITS");
    draw_image(image, size, units, count == 5 ? argument[4] : "");
    return fflush(stdout) == 0 && !ferror(stdout) ? 0 : fail(argument[1], "the picture could not be written");
}
