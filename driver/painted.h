/* Included before a program's own text, with a line PAINTED(us_NAME) as a macro for each call: before each call the stack below the
 * caller's is painted, and after it the lowest byte that was changed is looked for. The deepest so far of each place that calls goes
 * to standard error as a line `stack us_NAME BYTES`. */
#ifndef DRIVER_PAINTED_H
#define DRIVER_PAINTED_H

#include <stdint.h>
#include <stdio.h>

enum { PAINTED_WORDS = 4096, PAINT = 0x5A5AA5A5 };

static inline uintptr_t stack_pointer(void)
{
    uintptr_t sp;
#if defined __riscv
    __asm__ volatile("mv %0, sp" : "=r"(sp));
#elif defined __x86_64__
    __asm__ volatile("mov %%rsp, %0" : "=r"(sp));
#else
    __asm__ volatile("mov %0, sp" : "=r"(sp));
#endif
    return sp;
}

/* The painter's own frame is left out: it writes from 64 bytes below the caller's stack pointer downwards, and no call takes less. */
__attribute__((noinline, unused)) static void paint(uintptr_t sp)
{
    volatile uint32_t *top = (volatile uint32_t *)((sp & ~(uintptr_t)3) - 64);
    for (int i = 1; i <= PAINTED_WORDS; i++)
        top[-i] = PAINT;
}

__attribute__((noinline, unused)) static void measured(const char *name, uintptr_t sp, size_t *most)
{
    volatile uint32_t *low = (volatile uint32_t *)((sp & ~(uintptr_t)3) - 64) - PAINTED_WORDS;
    while ((uintptr_t)low < sp && *low == PAINT)
        low++;
    size_t depth = sp - (uintptr_t)low;
    if (depth <= *most)
        return;
    *most = depth;
    char text[16], *at = text + sizeof text;
    *--at = '\0';
    *--at = '\n';
    for (; depth > 0; depth /= 10)
        *--at = (char)('0' + depth % 10);
    fputs("stack ", stderr);
    fputs(name, stderr);
    fputs(" ", stderr);
    fputs(at, stderr);
}

#define PAINTED(name, call)              \
    __extension__({                      \
        static size_t most_;             \
        uintptr_t sp_ = stack_pointer(); \
        paint(sp_);                      \
        __typeof__(call) r_ = call;      \
        measured(name, sp_, &most_);     \
        r_;                              \
    })

#endif
