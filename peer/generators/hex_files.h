/* Random HEX files: right ones of any record length and order, and such with faults. */
#ifndef PEER_HEX_FILES_H
#define PEER_HEX_FILES_H

#include <stddef.h>
#include <stdint.h>

enum { HEX_TEXT_ROOM = 1 << 20 };

/* A file for an image of so many bytes, with up to two faults; its length. The text has HEX_TEXT_ROOM bytes. */
size_t hex_file(uint8_t *text, uint32_t size);

/* An image with rows that are all FF, of so many bytes. */
void hex_image(uint8_t *image, uint32_t size);

#endif
