/* Place: which unit, which position, which unit is reclaimed. */
#include "figures.h"

#include "figures_common.h"

static void put(struct bench *b, uint32_t unit, uint32_t position, uint32_t flags, uint32_t offset, uint32_t length, uint32_t tag)
{
    struct descriptor d = { (uint16_t)flags, (uint16_t)offset, (uint16_t)length, (uint16_t)tag };
    bench_put_descriptor(b, unit, position, d);
}

/* Position `first` and the next one are old and leave no gap. */
static void fill_with_old(struct bench *b, uint32_t unit, uint32_t first)
{
    uint32_t array_end = HEADER_SIZE + DESCRIPTOR_SIZE * (first + 2);
    put(b, unit, first, FLAGS_OLD, 256, 256, 0x1001);
    put(b, unit, first + 1, FLAGS_OLD, array_end, 256 - array_end, 0x1001);
}

static void greatest_gap(void)
{
    struct bench b;
    bench_formatted(&b, 512, 3);
    put(&b, 0, 0, FLAGS_PENDING, 512, 0, TAG_TRANSACTION);
    fill_with_old(&b, 0, 1);
    fill_with_old(&b, 1, 0);
    check(answer_is(store_write(b.flash, 2, zeros, 10, PLENTY), DONE, 4 + 10, 1, 0), "the greatest gap after reclaiming");
    bench_formatted(&b, 512, 3);
    put(&b, 0, 0, FLAGS_PENDING, 512, 0, TAG_TRANSACTION);
    put(&b, 1, 0, FLAGS_CURRENT, 512, 0, 0x1001);
    fill_with_old(&b, 0, 1);
    fill_with_old(&b, 1, 1);
    check(answer_is(store_write(b.flash, 2, zeros, 10, PLENTY), DONE, 8 + 10, 0, 1), "the lowest number on a tie");
}

/* A gap of 216 bytes holds the sector but not one descriptor more. */
static void an_empty_position_saves_eight_bytes(void)
{
    struct bench b;
    bench_formatted(&b, 512, 3);
    put(&b, 0, 1, FLAGS_PENDING, 512, 0, TAG_TRANSACTION);
    put(&b, 0, 2, FLAGS_OLD, 256, 256, 0x1001);
    check(answer_is(store_write(b.flash, 2, zeros, 216, PLENTY), DONE, 113, 0, 0), "an empty position and just enough gap");
    bench_formatted(&b, 512, 3);
    put(&b, 0, 1, FLAGS_PENDING, 512, 0, TAG_TRANSACTION);
    put(&b, 0, 2, FLAGS_OLD, 256, 256, 0x1001);
    check(answer_is(store_write(b.flash, 2, zeros, 217, PLENTY), DONE, 114, 1, 0), "an empty position and not enough gap");
}

static void reclaim_inside_a_rewrite(void)
{
    struct bench b;
    before_case_k(&b);
    check(answer_is(store_write(b.flash, 2, NULL, 0, PLENTY), DONE, 5, 0, 4), "file 2, empty");
    check(answer_is(store_write(b.flash, 2, zeros, 256, PLENTY), DONE, 12 + 133 + 1, 0, 0),
          "the earlier pending one is copied and becomes old at the end");
    check(store_judge(b.flash) == JUDGED_SETTLED, "settled after it");
    check(unit_descriptor(&b.flash, 2, 4).flags == FLAGS_OLD, "the copied one is old");
    check(store_read_transaction(b.flash, 2).length == 256, "the new one is in the view");
}

/* One committed file in each unit's room leaves room for a begin alone. */
static void a_full_store(void)
{
    struct bench b;
    bench_formatted(&b, 512, 3);
    put(&b, 0, 0, FLAGS_CURRENT, 256, 256, 0x1001);
    put(&b, 0, 1, FLAGS_CURRENT, 40, 216, 0x1002);
    put(&b, 1, 0, FLAGS_CURRENT, 256, 256, 0x1003);
    put(&b, 1, 1, FLAGS_CURRENT, 32, 224, 0x1004);
    check(answer_is(store_begin(b.flash, PLENTY), DONE, 5, 0, 2), "begin in the last eight bytes");
    check(answer_refuses(store_delete(b.flash, 1, PLENTY), NO_ROOM), "delete: 10");
    check(answer_refuses(store_write(b.flash, 1, NULL, 0, PLENTY), NO_ROOM), "write: 10");
    check(answer_absent(store_delete(b.flash, 9, PLENTY), COMMITTED_BEFORE), "9 before 10");
}

/* A unit with the room of a formatted one but for a sector of so many bytes, from the top down. */
static void leave_gap(struct bench *b, uint32_t unit, uint32_t gap)
{
    put(b, unit, 0, FLAGS_OLD, HEADER_SIZE + DESCRIPTOR_SIZE + gap, 512 - (HEADER_SIZE + DESCRIPTOR_SIZE + gap), 0x1001);
}

/* Begin's sector has no bytes, and takes eight for its descriptor. */
static void tightest_and_lowest(void)
{
    struct bench b, c;
    bench_formatted(&b, 512, 3);
    store_begin(b.flash, PLENTY);
    store_write(b.flash, 1, zeros, 230, PLENTY);
    store_write(b.flash, 2, zeros, 256, PLENTY);
    bench_copy(&c, &b);
    check(answer_is(store_write_by(b.flash, LOWEST, 3, NULL, 0, PLENTY), DONE, 5, 0, 2), "the lowest unit by the old rule");
    check(answer_is(store_write(c.flash, 3, NULL, 0, PLENTY), DONE, 5, 1, 1), "the tightest by the default");
    bench_formatted(&b, 512, 4);
    leave_gap(&b, 0, 260);
    leave_gap(&b, 1, 258);
    leave_gap(&b, 2, 258);
    check(answer_is(store_begin(b.flash, PLENTY), DONE, 5, 1, 1), "the lowest number on a tie");
    bench_formatted(&b, 512, 4);
    leave_gap(&b, 0, 262);
    leave_gap(&b, 1, 260);
    put(&b, 2, 0, FLAGS_PENDING, 512, 0, TAG_TRANSACTION);
    bench_copy(&c, &b);
    check(answer_is(store_write(b.flash, 1, zeros, 252, PLENTY), DONE, 131, 1, 1), "the tightest that fits");
    check(answer_is(store_write(c.flash, 1, zeros, 254, PLENTY), DONE, 132, 0, 1), "a tighter one that does not fit is passed over");
}

/* A gap of 100 bytes without an empty position; one of 100 with an empty one. */
static void tightest_with_a_position(void)
{
    struct bench b, c;
    bench_formatted(&b, 512, 4);
    put(&b, 0, 0, FLAGS_PENDING, 512, 0, TAG_TRANSACTION);
    put(&b, 0, 1, FLAGS_OLD, 256, 256, 0x1001);
    put(&b, 0, 2, FLAGS_OLD, 140, 116, 0x1001);
    put(&b, 1, 1, FLAGS_OLD, 256, 256, 0x1001);
    put(&b, 1, 2, FLAGS_OLD, 140, 116, 0x1001);
    bench_copy(&c, &b);
    check(answer_is(store_write(b.flash, 1, zeros, 92, PLENTY), DONE, 51, 0, 3), "the same gap: the lowest number");
    check(answer_is(store_write(c.flash, 1, zeros, 100, PLENTY), DONE, 55, 1, 0), "the same gap: only an empty position fits");
}

void figures_of_place(void)
{
    tightest_and_lowest();
    tightest_with_a_position();
    greatest_gap();
    an_empty_position_saves_eight_bytes();
    reclaim_inside_a_rewrite();
    a_full_store();
}
