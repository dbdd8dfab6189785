/* The drawing of an image. */
#ifndef FIRMWARE_DRAW_H
#define FIRMWARE_DRAW_H

#include "layout.h"

enum { MOST_UNITS = 64 };

/* Draws any bytes; the caption may be empty. */
void draw_image(const uint8_t *image, uint32_t size, uint32_t units, const char *caption);

#endif
