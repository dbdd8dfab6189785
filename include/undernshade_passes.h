/* Undernshade: pass lists and manual passes.
 *
 * A separate piece on top of the store (undernshade.h). File 0 is the staff list, file 1 the register, file 2 + n the pass of number n. All
 * are text: each line is ended by one line feed (10), numbers are decimal without leading zeros, and there is no other byte:
 *     list       night=0..999  zone=0..999  people=0..16  then one person=1..65535 line each, strictly ascending
 *     pass       pass=0..125  first=PERSON  second=PERSON
 *     register   count=0..126
 * You write the list, with us_begin, us_write of file 0 and us_commit; this piece writes the passes and the register. Where file 0 or 1 has
 * any other text it is not a list (US_BAD_LIST), or not a register (US_BAD_REGISTER). An empty file 0 is not a list either, and is not the
 * same as an absent one.
 *
 * What is promised (docs/PROMISES.md). Every pass in the store has two different people, both on the list that held when it was given, and
 * the register counts exactly the passes. No matter when the power goes, after the next mount a pass and its count are both there or
 * neither is. This holds from a finished us_format on, as long as nobody else writes or deletes files 1 to 127, and as long as after a
 * us_give that was US_STOPPED only us_mount and reads follow until a mount is US_DONE.
 *
 * What is not promised: that the list is tonight's (there is no clock: a list stays good until you replace it), and that room is left.
 *
 * Room. A list of 16 people takes up to 246 bytes, a pass up to 42 and the register up to 18. No room is kept back for the next list:
 * passes may take it. If a new list is US_NO_ROOM, yesterday's stays in force and only a format helps, which takes the register too. With
 * 16 people whose numbers have five digits and no other files:
 *
 *     size x units                          512 x 3     512 x 8     1024 x 3    1024 x 4    1024 x 8    2048 x 4
 *     passes until US_NO_ROOM               13          63          34          54          126, full   112
 *
 *     126 passes and still room for a new list, whenever it comes: from 512 x 20, 1024 x 10, 2048 x 5, 4096 x 3 on.
 *     After as many passes as can be given a new list is US_NO_ROOM: on 512 x 3 to 16, 1024 x 3 to 8, 2048 x 3 and 4.
 *
 * Try the next list on a copy of the image first. A pass that is US_NO_ROOM may cost a reclaim each time: do not retry in a loop.
 *
 * Memory and real flash are as in undernshade.h, but us_give takes less than 3,072 bytes of stack, us_staff and us_register less than
 * 2,304. For x86-64 `tools/staticlib c_passes` makes libc_passes.a, which has these three calls and the code of the store that they use,
 * and is linked beside libc_store.a; `tools/archive TARGET` puts all calls into one archive.
 */
#ifndef UNDERNSHADE_PASSES_H
#define UNDERNSHADE_PASSES_H

#include "undernshade.h"

#ifdef __cplusplus
extern "C" {
#endif

/* Further refusals. If several apply, us_give answers the first of 2, 3, 4, 8, then 20 to 25, then 10. A refusal changes no byte and makes
 * no step, with one exception: where the store refuses midway, with US_NO_ROOM after the transaction was begun, us_give aborts it. Only
 * that refusal reports steps: all that the call made, those of the abort too; the files are as before and no transaction is open. Where the
 * allowance ends before the abort does, the answer is US_STOPPED.
 *
 *     us_give          0 to 4, 8, 20 to 25, 10
 *     us_staff         0, 2 to 4, 20, 21
 *     us_register      0, 2 to 4, 24
 */
enum {
    US_NO_LIST = 20,      /* file 0 is absent, or a list of no people: no pass may be given */
    US_BAD_LIST = 21,     /* file 0 is there, but is not a list */
    US_NOT_ON_LIST = 22,  /* one of the two, or both; a number of 0 or above 65,535 is on no list */
    US_SAME_PERSON = 23,  /* both are the same person, who is on the list */
    US_BAD_REGISTER = 24, /* file 1 is there, but is not a register of 0 to 126 */
    US_REGISTER_FULL = 25 /* 126 passes were given */
};

/* `pass` is the number of the pass that was given, 0 unless `number` is US_DONE. */
typedef struct {
    uint32_t number;
    uint32_t steps;
    size_t pass;
} us_pass;

/* Where `number` is not US_DONE the other fields are 0. */
typedef struct {
    uint32_t number;
    size_t night;
    size_t zone;
    size_t people;
} us_staff_list;

typedef struct {
    uint32_t number;
    size_t count;
} us_pass_count;

/* Gives a pass to two people: writes its file and the raised count in one transaction of its own; US_OPEN where a transaction is open. The
 * loop of undernshade.h, "Real flash", works for it unchanged. After US_STOPPED call us_mount. It knows nothing of a table
 * (undernshade_table.h): if you keep one, fill it after us_give, and after US_STOPPED mount through it. */
us_pass us_give(uint8_t *image, size_t image_length, uint32_t size, uint32_t units, uint32_t first, uint32_t second, uint32_t allowance);

/* The committed list, and the committed register (0 where it is absent), also while a transaction is open. us_give itself reads them in the
 * same way, so firmware need not read these texts by itself. The two calls change nothing. */
us_staff_list us_staff(const uint8_t *image, size_t image_length, uint32_t size, uint32_t units);
us_pass_count us_register(const uint8_t *image, size_t image_length, uint32_t size, uint32_t units);

#ifdef __cplusplus
}
#endif

#endif
