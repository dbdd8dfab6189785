/* The same work on two stores: small files, each updated again and again, in 16 units of 512 bytes. */
#ifndef BENCH_WORK_H
#define BENCH_WORK_H

#include <stdbool.h>
#include <stddef.h>
#include <stdint.h>

enum { WORK_SIZE = 512, WORK_UNITS = 16, WORK_LENGTH = 16 };

/* What the flash was asked for: words of two bytes that were programmed, and units that were erased. */
extern uint32_t work_programmed, work_erased;

/* The memory that the store keeps between its calls, or is lent for them, beside the stack. */
extern const size_t work_memory;

/* Each tells whether it was done. An update is whole or not made at all, whenever the power goes. */
bool work_format(void);
bool work_mount(void);
bool work_update(uint32_t file, const uint8_t *content);
bool work_read(uint32_t file, uint8_t *content);

#endif
