/* The start of a Cortex-M3: the first two words of its memory are the stack pointer and where to begin. */
#include <stdint.h>
#include <stdlib.h>
#include <string.h>

extern uint8_t stack_top[], data_start[], data_end[], data_load[], bss_start[], bss_end[];

int main(void);
void reset(void);

static void stopped(void)
{
    exit(70);
}

__attribute__((section(".vectors"), used)) static const uintptr_t vectors[16] = { (uintptr_t)stack_top, (uintptr_t)reset,
                                                                                  (uintptr_t)stopped,   (uintptr_t)stopped,
                                                                                  (uintptr_t)stopped,   (uintptr_t)stopped,
                                                                                  (uintptr_t)stopped };

void reset(void)
{
    memcpy(data_start, data_load, (size_t)(data_end - data_start));
    memset(bss_start, 0, (size_t)(bss_end - bss_start));
    exit(main());
}
