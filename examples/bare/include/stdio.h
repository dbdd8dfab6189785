/* Of the C library what the examples and the driver use: stdio.c. */
#ifndef BARE_STDIO_H
#define BARE_STDIO_H

#include <stddef.h>

enum { EOF = -1, BUFSIZ = 4096, _IOLBF = 1 };

typedef struct stream FILE;
extern FILE *const stdin, *const stdout, *const stderr;

int getc(FILE *in);
int putchar(int byte);
int puts(const char *text);
int fputs(const char *text, FILE *out);

/* %d, %s, and %u and %x with a width and with z, l or ll before them. */
__attribute__((format(printf, 1, 2))) int printf(const char *format, ...);

/* Output goes out at the end of every line anyway. */
int setvbuf(FILE *stream, char *buffer, int mode, size_t size);
int fflush(FILE *stream);
int ferror(FILE *stream);

#endif
