/* Intel HEX, the second program's own reader and writer. */
#ifndef PEER_HEX_H
#define PEER_HEX_H

#include <stddef.h>
#include <stdint.h>

/* 0, 2 or 30 to 35; the image changes only where it is 0. */
int hex_read(const uint8_t *text, size_t length, uint32_t unit_size, uint32_t units, uint8_t *image, size_t image_length);

/* The text's length, or 0 for refusal 2. */
size_t hex_write(const uint8_t *image, size_t image_length, uint32_t unit_size, uint32_t units, char *text, size_t room);

#endif
