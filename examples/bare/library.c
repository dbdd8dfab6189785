/* What the archive needs of a C library and of the compiler's own one: moving and filling bytes, and dividing numbers of 64 bits. Whoever
 * links with a C library has these, faster. */
#include <string.h>

#include <stdint.h>

typedef uint32_t __attribute__((may_alias)) word;

/* Whether both stand at multiples of four: then whole words are moved. */
static int at_words(const void *a, const void *b)
{
    return ((uintptr_t)a | (uintptr_t)b) % sizeof(word) == 0;
}

void *memmove(void *to, const void *from, size_t count)
{
    unsigned char *t = to;
    const unsigned char *f = from;
    if (t < f) {
        if (at_words(t, f))
            for (; count >= sizeof(word); count -= sizeof(word), t += sizeof(word), f += sizeof(word))
                *(word *)t = *(const word *)f;
        for (; count > 0; count--)
            *t++ = *f++;
    } else {
        if (at_words(t + count, f + count))
            for (; count >= sizeof(word); count -= sizeof(word))
                *(word *)(t + count - sizeof(word)) = *(const word *)(f + count - sizeof(word));
        for (; count > 0; count--)
            t[count - 1] = f[count - 1];
    }
    return to;
}

void *memcpy(void *to, const void *from, size_t count)
{
    return memmove(to, from, count);
}

void *memset(void *to, int byte, size_t count)
{
    unsigned char *t = to;
    if (at_words(t, t))
        for (; count >= sizeof(word); count -= sizeof(word), t += sizeof(word))
            *(word *)t = (word)(unsigned char)byte * 0x01010101;
    for (; count > 0; count--)
        *t++ = (unsigned char)byte;
    return to;
}

int memcmp(const void *a, const void *b, size_t count)
{
    const unsigned char *x = a, *y = b;
    for (size_t i = 0; i < count; i++)
        if (x[i] != y[i])
            return x[i] < y[i] ? -1 : 1;
    return 0;
}

size_t strlen(const char *text)
{
    size_t length = 0;
    while (text[length] != '\0')
        length++;
    return length;
}

#if __SIZEOF_POINTER__ == 4
/* The quotient; the remainder goes to *rest. By 0 it is 0. */
uint64_t divide(uint64_t number, uint64_t by, uint64_t *rest)
{
    uint64_t quotient = 0;
    int shift = by == 0 ? -1 : 0;
    for (; shift >= 0 && by <= number >> 1; by <<= 1)
        shift++;
    for (; shift >= 0; shift--, by >>= 1) {
        quotient <<= 1;
        if (number >= by) {
            number -= by;
            quotient |= 1;
        }
    }
    *rest = number;
    return quotient;
}

uint64_t __udivdi3(uint64_t number, uint64_t by);
uint64_t __umoddi3(uint64_t number, uint64_t by);

uint64_t __udivdi3(uint64_t number, uint64_t by)
{
    uint64_t rest;
    return divide(number, by, &rest);
}

uint64_t __umoddi3(uint64_t number, uint64_t by)
{
    uint64_t rest;
    divide(number, by, &rest);
    return rest;
}
#endif

#ifdef __arm__
/* The names and the order of arguments that Arm's ABI gives them. */
/* clang-format off */
void __aeabi_memcpy(void *to, const void *from, size_t count) { memmove(to, from, count); }
void __aeabi_memcpy4(void *to, const void *from, size_t count) { memmove(to, from, count); }
void __aeabi_memcpy8(void *to, const void *from, size_t count) { memmove(to, from, count); }
void __aeabi_memmove(void *to, const void *from, size_t count) { memmove(to, from, count); }
void __aeabi_memmove4(void *to, const void *from, size_t count) { memmove(to, from, count); }
void __aeabi_memmove8(void *to, const void *from, size_t count) { memmove(to, from, count); }
void __aeabi_memset(void *to, size_t count, int byte) { memset(to, byte, count); }
void __aeabi_memset4(void *to, size_t count, int byte) { memset(to, byte, count); }
void __aeabi_memset8(void *to, size_t count, int byte) { memset(to, byte, count); }
void __aeabi_memclr(void *to, size_t count) { memset(to, 0, count); }
void __aeabi_memclr4(void *to, size_t count) { memset(to, 0, count); }
void __aeabi_memclr8(void *to, size_t count) { memset(to, 0, count); }
/* clang-format on */

/* Not every Arm has an instruction for these. The quotient goes to r0, the remainder to r1. */
uint64_t __aeabi_uidivmod(uint32_t number, uint32_t by)
{
    uint64_t rest, quotient = divide(number, by, &rest);
    return rest << 32 | quotient;
}

/* Compiled for an ARMv6-M, which has no instructions for them, these would call themselves: there only the compiler's library will do. */
#ifndef __ARM_ARCH_6M__
/* clang-format off */
uint64_t __aeabi_lmul(uint64_t a, uint64_t b) { return a * b; }
uint64_t __aeabi_llsl(uint64_t a, int bits) { return a << bits; }
uint64_t __aeabi_llsr(uint64_t a, int bits) { return a >> bits; }
/* clang-format on */
#endif

/* Quotient in r0 and r1, remainder in r2 and r3. */
__asm__(
    ".syntax unified\n"
    ".section .text.__aeabi_uldivmod, \"ax\", %progbits\n"
    ".global __aeabi_uldivmod\n.type __aeabi_uldivmod, %function\n"
#ifdef __thumb__
    ".thumb_func\n"
#endif
    "__aeabi_uldivmod:\n"
    "push {r6, lr}\nsub sp, #16\nadd r6, sp, #8\nstr r6, [sp]\nbl divide\nldr r2, [sp, #8]\nldr r3, [sp, #12]\nadd sp, #16\npop {r6, pc}\n"
    ".text\n");
#endif
