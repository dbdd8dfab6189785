/* The image that a script's lines play on, and a result line. */
#ifndef DRIVER_SESSION_H
#define DRIVER_SESSION_H

#include <stdbool.h>

#include "../include/undernshade.h"

enum { LARGEST_IMAGE = 65536, LARGEST_SIZE = 65600, GUARD = 64, GUARD_BYTE = 0xA5 };

/* An image with its geometry numbers, as `keep` remembers it. The guards stand right before and right behind the image. */
struct session {
    uint32_t size;
    uint32_t units;
    size_t length;
    uint8_t bytes[GUARD + LARGEST_SIZE + GUARD];
};

extern struct session now;

/* What every call takes first. */
#define IMAGE now.bytes + GUARD, now.length, now.size, now.units

uint8_t *image(void);
void set_guards(void);

/* What a line says where a byte beside the image was changed. */
const char *guards_said(void);
uint32_t hash(void);

/* A result line, without its end. */
void print_report(us_report r);

#endif
