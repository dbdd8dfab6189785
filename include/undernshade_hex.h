/* Undernshade: an image as an Intel HEX text, and back, for a programmer station.
 *
 * The two calls are in an archive of their own, libc_hex.a (`tools/staticlib c_hex`), and need nothing from the store's. Each takes the
 * image as a pointer and a length, and its geometry: `units` units of `size` bytes each, as in undernshade.h. They do not look at what the
 * bytes mean: an image that the store would refuse is written too, and a text may bring any bytes, so call us_mount after us_hex_read.
 *
 * The text is plain bytes, with no zero at the end. Writing gives data records of 16 bytes at ascending addresses in upper case, leaves out
 * rows that are all FF, ends with ":00000001FF", and ends each line with a line feed. Reading takes records of type 00 and 01 of any data
 * length in any order, either letter case, and lines ended by a line feed or by a carriage return and a line feed; bytes not named are FF.
 *
 * Memory. Nothing is kept between calls and nothing is allocated. us_hex_read takes less than 8,448 bytes of stack, of which 8,192 are a
 * bit for each address; us_hex_write takes less than 128. This counts what the archive's functions push and subtract along the deepest
 * chain of calls, with the return addresses; what your memset takes comes on top. The archive is x86-64 code with the System V ABI, as the
 * store's of `tools/staticlib` is. `tools/archive TARGET` has the two calls for other processors too, where they take less than 8,704 and
 * 320.
 */
#ifndef UNDERNSHADE_HEX_H
#define UNDERNSHADE_HEX_H

#include <stddef.h>
#include <stdint.h>

#ifdef __cplusplus
extern "C" {
#endif

/* What us_hex_read answers; us_hex_write answers only 0 and 2. The first bad line decides, and if several things are wrong with it,
 * the lowest number. A call that answers anything but 0 changes no byte. */
enum {
    US_HEX_DONE = 0,
    US_HEX_BAD_GEOMETRY = 2, /* size, units or image_length is not right, or text_length is below US_HEX_ROOM */
    US_HEX_BAD_LINE = 30,    /* a line that is not a record; an end record with data; a line after the end record */
    US_HEX_BAD_CHECKSUM = 31,
    US_HEX_BAD_TYPE = 32,    /* a record of a type other than 00 and 01 */
    US_HEX_OUTSIDE = 33,     /* a byte at or beyond the image's end */
    US_HEX_NAMED_TWICE = 34, /* a byte that an earlier record names, even with the same value */
    US_HEX_NO_END = 35
};

/* The longest text of an image of n bytes: the room that us_hex_write asks for. */
#define US_HEX_ROOM(n) ((size_t)(n) / 16 * 44 + 12)

typedef struct us_hex_report {
    uint32_t number;
    size_t length; /* of the text that was written, else 0 */
} us_hex_report;

/* Writes the image's text to the beginning of `text`; the rest of `text` is unchanged. */
us_hex_report us_hex_write(const uint8_t *image, size_t image_length, uint32_t size, uint32_t units, uint8_t *text, size_t text_length);

/* Reads a text into the image: the bytes that it names, and FF for all others. */
us_hex_report us_hex_read(uint8_t *image, size_t image_length, uint32_t size, uint32_t units, const uint8_t *text, size_t text_length);

#ifdef __cplusplus
}
#endif

#endif
