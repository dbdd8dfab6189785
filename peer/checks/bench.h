/* What the test programs share: counted checks and an image to work on. */
#ifndef PEER_BENCH_H
#define PEER_BENCH_H

#include "../store/store.h"

enum { PLENTY = 1000000 };

extern const char *const group_name[GROUPS];

/* Counts a check, and prints one line where it fails. */
void check(bool ok, const char *what);
uint32_t checks_passed(void);
uint32_t checks_failed(void);

/* An image of its own; the flash points into it. */
struct bench {
    struct flash flash;
    uint8_t image[MAX_IMAGE];
};

void bench_erased(struct bench *b, uint32_t unit_size, uint32_t units);
void bench_formatted(struct bench *b, uint32_t unit_size, uint32_t units);
void bench_copy(struct bench *to, const struct bench *from);
bool bench_same(const struct bench *a, const struct bench *b);
void bench_put_word(struct bench *b, uint32_t address, uint16_t value);
void bench_put_descriptor(struct bench *b, uint32_t unit, uint32_t position, struct descriptor d);

/* The most units that an image of this unit size may have. */
uint32_t most_units(uint32_t unit_size);

/* S/2 + 1 + (U-1)(S-16)/8. */
uint32_t mount_bound(uint32_t unit_size, uint32_t units);

bool answer_is(struct answer a, uint32_t number, uint32_t steps, uint32_t unit, uint32_t position);

/* True where the answer is nothing but the number. */
bool answer_refuses(struct answer a, uint32_t number);

/* True where the answer is ABSENT, says this, and is nothing else. */
bool answer_absent(struct answer a, enum from from);
bool answer_content_is(const struct bench *b, struct answer a, const void *content, uint32_t length);
enum group bench_group(const struct bench *b);

#endif
