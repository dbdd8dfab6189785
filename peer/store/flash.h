/* The lent image of NOR flash: geometry, words, and the two kinds of step. */
#ifndef PEER_FLASH_H
#define PEER_FLASH_H

#include <stdbool.h>
#include <stddef.h>
#include <stdint.h>

enum { MAX_UNITS = 64, MAX_UNIT_SIZE = 4096, MAX_IMAGE = 65536, ERASED = 0xFFFF };

/* Any numbers and any length may stand here; flash_geometry_ok tells whether they fit together. */
struct flash {
    uint8_t *image;
    size_t length;
    uint32_t unit_size;
    uint32_t units;
};

bool flash_geometry_ok(const struct flash *f);

/* All below need a good geometry; an address is a byte offset in the image. */
uint32_t flash_unit_start(const struct flash *f, uint32_t unit);
uint16_t flash_word(const struct flash *f, uint32_t address);
bool flash_all_erased(const struct flash *f, uint32_t address, uint32_t length);
bool flash_unit_erased(const struct flash *f, uint32_t unit);
void flash_program(struct flash *f, uint32_t address, uint16_t value);
void flash_erase(struct flash *f, uint32_t unit);

#endif
