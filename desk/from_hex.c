/* from_hex: the image that an Intel HEX text names, as the proved program of the same name prints it. */
#include <stdio.h>

#include "../include/undernshade_hex.h"
#include "desk.h"

static const char help[] =
    "usage: from_hex <INPUT >OUTPUT\n"
    "Writes the image that an Intel HEX text names, behind the two lines that INPUT begins with.\n"
    "INPUT has these two lines, the size of a unit and how many there are, and then the text, for example\n"
    "    { printf 'unit=512\\nunits=3\\n'; cat x.hex; } | from_hex | tail -n +3 >image\n"
    "A text that is not right is refused: OUTPUT has then only refused= and a number (docs/HEX.md).\n"
    "It ends with 0 where the image is written whole, with 1 where the input was refused, and with 2 where the\n"
    "input was not read, the output was not written whole, or there are words on the command line.\n";

enum { LONGEST_INPUT = 196608 };

static const char *why(uint32_t number)
{
    switch (number) {
    case US_HEX_BAD_LINE: return "a line is not a record";
    case US_HEX_BAD_CHECKSUM: return "the bytes of a record do not add up to 0";
    case US_HEX_BAD_TYPE: return "a record is of another type than 00 and 01";
    case US_HEX_OUTSIDE: return "a record names a byte beyond the image's end";
    case US_HEX_NAMED_TWICE: return "a byte is named twice";
    case US_HEX_NO_END: return "there is no end record";
    default: return "the size of a unit or the number of units is not right";
    }
}

int main(int argc, char **argv)
{
    static uint8_t room[LONGEST_INPUT + 1], image[LARGEST_IMAGE];
    char lines[40];
    desk_begin(argc, argv, "from_hex", help);
    struct input in = desk_read(room, LONGEST_INPUT);
    uint64_t length = (uint64_t)in.size * in.units;
    us_hex_report r = us_hex_read(image, length <= sizeof image ? (size_t)length : 0, in.size, in.units, in.rest, in.length);
    if (r.number != US_HEX_DONE)
        desk_refuse(r.number, why(r.number));
    desk_write(lines, (size_t)snprintf(lines, sizeof lines, "unit=%u\nunits=%u\n", (unsigned)in.size, (unsigned)in.units));
    desk_write(image, (size_t)length);
    desk_end(WRITTEN);
}
