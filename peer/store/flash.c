#include "flash.h"

#include <string.h>

static bool unit_size_ok(uint32_t size)
{
    return size == 512 || size == 1024 || size == 2048 || size == 4096;
}

bool flash_geometry_ok(const struct flash *f)
{
    if (!unit_size_ok(f->unit_size) || f->units < 3 || f->units > MAX_UNITS)
        return false;
    uint32_t whole = f->units * f->unit_size;
    return whole <= MAX_IMAGE && f->length == whole;
}

uint32_t flash_unit_start(const struct flash *f, uint32_t unit)
{
    return unit * f->unit_size;
}

uint16_t flash_word(const struct flash *f, uint32_t address)
{
    return (uint16_t)(f->image[address] | f->image[address + 1] << 8);
}

bool flash_all_erased(const struct flash *f, uint32_t address, uint32_t length)
{
    for (uint32_t i = 0; i < length; i++)
        if (f->image[address + i] != 0xFF)
            return false;
    return true;
}

bool flash_unit_erased(const struct flash *f, uint32_t unit)
{
    return flash_all_erased(f, flash_unit_start(f, unit), f->unit_size);
}

void flash_program(struct flash *f, uint32_t address, uint16_t value)
{
    f->image[address] &= (uint8_t)(value & 0xFF);
    f->image[address + 1] &= (uint8_t)(value >> 8);
}

void flash_erase(struct flash *f, uint32_t unit)
{
    memset(f->image + flash_unit_start(f, unit), 0xFF, f->unit_size);
}
