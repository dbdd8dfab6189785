/* How uint32_t is printed: gcc for bare Arm and RISC-V has it as long, as their C libraries do. */
#ifndef BARE_INTTYPES_H
#define BARE_INTTYPES_H

#include <stdint.h>

#if defined __clang__ || __SIZEOF_LONG__ == 8
#define PRIu32 "u"
#else
#define PRIu32 "lu"
#endif

#endif
