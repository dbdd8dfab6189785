/* The start of a program that an emulator of one process runs, with the emulator's semihosting. */
#include <stdlib.h>

int main(void);
void _start(void);

void _start(void)
{
    exit(main());
}
