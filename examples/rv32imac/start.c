/* The start of a RISC-V processor: it begins at `start`, with no stack. */
#include <stdint.h>
#include <stdlib.h>
#include <string.h>

extern uint8_t bss_start[], bss_end[];

int main(void);
void reset(void);

__asm__(
    ".section .start, \"ax\"\n.global start\nstart:\nla sp, stack_top\nla t0, trapped\ncsrw mtvec, t0\nj reset\n"
    ".balign 4\ntrapped:\nj stopped\n.text\n");

__attribute__((used)) static void stopped(void)
{
    exit(70);
}

void reset(void)
{
    memset(bss_start, 0, (size_t)(bss_end - bss_start));
    exit(main());
}
