/* Reading records: S, U and N as three numbers of four bytes, low byte first, then N bytes. */
#ifndef BENCH_RECORDS_H
#define BENCH_RECORDS_H

#include <stdbool.h>
#include <stddef.h>
#include <stdint.h>
#include <stdio.h>

struct record {
    uint32_t unit_size;
    uint32_t units;
    size_t length;
    uint8_t *image;
};

/* False at the end of the file; a record that breaks off ends the program with a message. */
bool record_read(struct record *r, FILE *in);

/* Opens a file of records, or ends the program with a message. */
FILE *records_open(const char *path);

/* Prints the record as a replay script whose last line is the given one. */
void record_script(const struct record *r, const char *last);

#endif
