/* Calls of the machine that the program is debugged from, here the emulator: files, output and the program's end. */
#ifndef BARE_SEMIHOSTING_H
#define BARE_SEMIHOSTING_H

#include <stdint.h>

enum { HOST_OPEN = 0x01, HOST_WRITE = 0x05, HOST_READ = 0x06, HOST_EXIT_EXTENDED = 0x20, APPLICATION_EXIT = 0x20026 };

/* `block` points to the call's arguments, each as wide as a pointer. */
static inline uintptr_t host(uintptr_t call, uintptr_t *block)
{
#if defined __riscv
    register uintptr_t a0 __asm__("a0") = call;
    register uintptr_t *a1 __asm__("a1") = block;
    __asm__ volatile(".balign 16\n.option push\n.option norvc\nslli x0, x0, 0x1f\nebreak\nsrai x0, x0, 7\n.option pop"
                     : "+r"(a0)
                     : "r"(a1)
                     : "memory");
    return a0;
#elif defined __aarch64__
    register uintptr_t x0 __asm__("x0") = call;
    register uintptr_t *x1 __asm__("x1") = block;
    __asm__ volatile("hlt #0xf000" : "+r"(x0) : "r"(x1) : "memory");
    return x0;
#else
    register uintptr_t r0 __asm__("r0") = call;
    register uintptr_t *r1 __asm__("r1") = block;
#if __ARM_ARCH_PROFILE == 'M'
    __asm__ volatile("bkpt #0xab" : "+r"(r0) : "r"(r1) : "memory");
#else
    __asm__ volatile("svc #0x123456" : "+r"(r0) : "r"(r1) : "memory");
#endif
    return r0;
#endif
}

#endif
