/* Standard input and output by the machine that the program is debugged from. INPUT and OUTPUT are names of files there; without them
 * nothing is read, and output goes to its console. */
#include <stdio.h>

#include <stdarg.h>
#include <stdbool.h>
#include <stdint.h>
#include <stdlib.h>
#include <string.h>

#include "semihosting.h"

#ifndef INPUT
#define INPUT ""
#endif
#ifndef OUTPUT
#define OUTPUT ":tt"
#endif

enum { READ_BYTES = 1, WRITE_BYTES = 5, HEAP = 1 << 20 };

struct stream {
    const char *name;
    uintptr_t mode;
    bool open;
    uintptr_t handle;
    size_t at, end;
    char buffer[BUFSIZ];
};

static FILE input = { .name = INPUT, .mode = READ_BYTES }, output = { .name = OUTPUT, .mode = WRITE_BYTES },
            errors = { .name = ":tt", .mode = WRITE_BYTES };
FILE *const stdin = &input, *const stdout = &output, *const stderr = &errors;

static void open_once(FILE *f)
{
    if (f->open)
        return;
    uintptr_t block[] = { (uintptr_t)f->name, f->mode, strlen(f->name) };
    f->handle = host(HOST_OPEN, block);
    f->open = true;
}

int fflush(FILE *f)
{
    if (f->at > 0) {
        open_once(f);
        uintptr_t block[] = { f->handle, (uintptr_t)f->buffer, f->at };
        host(HOST_WRITE, block);
        f->at = 0;
    }
    return 0;
}

static void put(int byte, FILE *f)
{
    f->buffer[f->at++] = (char)byte;
    if (byte == '\n' || f->at == sizeof f->buffer)
        fflush(f);
}

int putchar(int byte)
{
    put(byte, stdout);
    return byte;
}

int fputs(const char *text, FILE *f)
{
    for (; *text != '\0'; text++)
        put(*text, f);
    return 0;
}

int puts(const char *text)
{
    fputs(text, stdout);
    return putchar('\n');
}

int getc(FILE *f)
{
    if (f->name[0] == '\0')
        return EOF;
    if (f->at == f->end) {
        open_once(f);
        uintptr_t block[] = { f->handle, (uintptr_t)f->buffer, sizeof f->buffer };
        f->end = sizeof f->buffer - host(HOST_READ, block);
        f->at = 0;
        if (f->end == 0)
            return EOF;
    }
    return (unsigned char)f->buffer[f->at++];
}

static void put_number(uint64_t number, unsigned base, int width)
{
    char digits[24];
    int count = 0;
    do {
        digits[count++] = "0123456789abcdef"[number % base];
        number /= base;
    } while (number > 0 || count < width);
    while (count > 0)
        putchar(digits[--count]);
}

int printf(const char *format, ...)
{
    va_list arguments;
    va_start(arguments, format);
    for (; *format != '\0'; format++) {
        if (*format != '%') {
            putchar(*format);
            continue;
        }
        format++;
        int width = 0;
        for (; *format >= '0' && *format <= '9'; format++)
            width = width * 10 + *format - '0';
        int longs = 0;
        for (; *format == 'l' || *format == 'z'; format++)
            longs++;
        if (*format == 's') {
            fputs(va_arg(arguments, const char *), stdout);
        } else if (*format == 'd') {
            int number = va_arg(arguments, int);
            if (number < 0)
                putchar('-');
            put_number(number < 0 ? -(uint64_t)number : (uint64_t)number, 10, width);
        } else {
            uint64_t number = longs == 0   ? va_arg(arguments, unsigned)
                              : longs == 1 ? va_arg(arguments, unsigned long)
                                           : va_arg(arguments, unsigned long long);
            put_number(number, *format == 'x' ? 16 : 10, width);
        }
    }
    va_end(arguments);
    return 0;
}

int setvbuf(FILE *stream, char *buffer, int mode, size_t size)
{
    (void)stream, (void)buffer, (void)mode, (void)size;
    return 0;
}

int ferror(FILE *stream)
{
    (void)stream;
    return 0;
}

_Noreturn void exit(int status)
{
    fflush(stdout);
    fflush(stderr);
    uintptr_t block[] = { APPLICATION_EXIT, (uintptr_t)status };
    for (;;)
        host(HOST_EXIT_EXTENDED, block);
}

void *realloc(void *block, size_t size)
{
    static _Alignas(16) char heap[HEAP];
    static size_t used;
    if (block != NULL && block != heap)
        return NULL;
    if (block == NULL && used > 0)
        return NULL;
    used = size;
    return size <= sizeof heap ? heap : NULL;
}

void free(void *block)
{
    (void)block;
}
