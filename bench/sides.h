/* The store's calls through its archive, and the second program's under the same names and with the same reports. */
#ifndef BENCH_SIDES_H
#define BENCH_SIDES_H

#include <stdbool.h>

#include "../include/undernshade.h"

enum { LARGEST_IMAGE = 65536, FILES = 256, LONGEST = 256 };

typedef us_report change(uint8_t *image, size_t image_length, uint32_t size, uint32_t units, uint32_t allowance);
typedef us_report store_file(uint8_t *image, size_t image_length, uint32_t size, uint32_t units, uint32_t file, const uint8_t *content,
                             size_t content_length, uint32_t allowance);
typedef us_report delete_file(uint8_t *image, size_t image_length, uint32_t size, uint32_t units, uint32_t file, uint32_t allowance);
typedef us_report read_file(const uint8_t *image, size_t image_length, uint32_t size, uint32_t units, uint32_t file);
typedef us_report read_handle(const uint8_t *image, size_t image_length, uint32_t size, uint32_t units, size_t unit, size_t position);

struct side {
    change *format, *mount, *begin, *begin_lowest, *commit, *abort;
    store_file *write, *write_lowest;
    delete_file *remove, *remove_lowest;
    read_file *read, *read_open;
    read_handle *read_at;
};

extern const struct side store_side;
extern const struct side second_side;
extern const struct side empty_side; /* its calls do nothing */

struct image {
    uint32_t size;
    uint32_t units;
    size_t length;
    uint8_t bytes[LARGEST_IMAGE];
};

/* What every call takes first. */
#define IMAGE(i) (i)->bytes, (i)->length, (i)->size, (i)->units

void image_erase(struct image *i, uint32_t size, uint32_t units);
void image_copy(struct image *to, const struct image *from);

/* The unit with no logical number; a whole call that moves it has reclaimed, and erased the unit that it is then. */
uint32_t image_spare(const struct image *i);

#endif
