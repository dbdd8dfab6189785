/* The image that a script's lines play on, with its geometry numbers. */
#ifndef PEER_SESSION_H
#define PEER_SESSION_H

#include "../store/store.h"

enum { MAX_SIZE = 65600 };

struct session {
    uint32_t unit_size;
    uint32_t units;
    uint32_t length;
    uint8_t image[MAX_SIZE];
};

extern struct session now;

struct flash flash_now(void);
uint32_t image_hash(void);

/* A result line, without its end. */
void print_result(struct answer a);

#endif
