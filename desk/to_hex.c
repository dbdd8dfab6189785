/* to_hex: an image as an Intel HEX text, as the proved program of the same name prints it. */
#include "../include/undernshade_hex.h"
#include "desk.h"

static const char help[] =
    "usage: to_hex <INPUT >OUTPUT\n"
    "Writes an image as an Intel HEX text.\n"
    "INPUT has two lines, the size of a unit and how many there are, and then the image's bytes, for example\n"
    "    { printf 'unit=512\\nunits=3\\n'; cat image; } | to_hex >x.hex\n"
    "If they do not fit each other the input is refused: OUTPUT has then only refused=2 (docs/HEX.md).\n"
    "It ends with 0 where the text is written whole, with 1 where the input was refused, and with 2 where the\n"
    "input was not read, the output was not written whole, or there are words on the command line.\n";

enum { LONGEST_INPUT = 65555 };

int main(int argc, char **argv)
{
    static uint8_t room[LONGEST_INPUT + 1], text[US_HEX_ROOM(LARGEST_IMAGE)];
    desk_begin(argc, argv, "to_hex", help);
    struct input in = desk_read(room, LONGEST_INPUT);
    us_hex_report r = us_hex_write(in.rest, in.length, in.size, in.units, text, sizeof text);
    if (r.number != US_HEX_DONE)
        desk_refuse(r.number, "the size of a unit, the number of units or the length of the image is not right");
    desk_write(text, r.length);
    desk_end(WRITTEN);
}
