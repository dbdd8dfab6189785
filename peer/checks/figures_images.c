/* Images made by hand: what settled and sound ask, one condition at a time. */
#include "figures.h"

#include <string.h>

#include "figures_common.h"

enum { OPEN_FLAGS = FLAGS_PENDING, COMMITTED_FLAGS = FLAGS_CURRENT };

static struct descriptor make(uint32_t flags, uint32_t offset, uint32_t length, uint32_t tag)
{
    return (struct descriptor){ (uint16_t)flags, (uint16_t)offset, (uint16_t)length, (uint16_t)tag };
}

static void put(struct bench *b, uint32_t unit, uint32_t position, uint32_t flags, uint32_t offset, uint32_t length, uint32_t tag)
{
    bench_put_descriptor(b, unit, position, make(flags, offset, length, tag));
}

/* Judges a formatted 512 x 3 image with one descriptor at 0:0. */
static enum group one(uint32_t flags, uint32_t offset, uint32_t length, uint32_t tag)
{
    struct bench b;
    bench_formatted(&b, 512, 3);
    put(&b, 0, 0, flags, offset, length, tag);
    return bench_group(&b);
}

static void single_descriptors(void)
{
    check(one(FLAGS_CURRENT, 512, 0, 0x1000) == GROUP_SETTLED, "size 0 at S");
    check(one(FLAGS_CURRENT, 24, 0, 0x10FF) == GROUP_SETTLED, "size 0 just above the array");
    check(one(FLAGS_CURRENT, 22, 0, 0x1000) == GROUP_NOT_SOUND, "size 0 inside the array");
    check(one(FLAGS_CURRENT, 511, 0, 0x1000) == GROUP_NOT_SOUND, "an odd offset of size 0");
    check(one(FLAGS_CURRENT, 514, 0, 0x1000) == GROUP_NOT_SOUND, "beyond S");
    check(one(FLAGS_CURRENT, 256, 256, 0x1000) == GROUP_SETTLED, "256 bytes");
    check(one(FLAGS_CURRENT, 254, 257, 0x1000) == GROUP_NOT_SOUND, "257 bytes");
    check(one(FLAGS_CURRENT, 510, 3, 0x1000) == GROUP_NOT_SOUND, "over the unit's end");
    check(one(FLAGS_OLD, 512, 0, 0x1100) == GROUP_NOT_SOUND, "no such tag");
    check(one(FLAGS_OLD, 512, 0, 0x2000) == GROUP_SETTLED, "an old delete mark");
    check(one(FLAGS_OLD, 510, 1, 0x2000) == GROUP_NOT_SOUND, "a delete mark with a length");
    check(one(FLAGS_OLD, 510, 2, 0x3000) == GROUP_NOT_SOUND, "a transaction with a length");
    check(one(FLAGS_OLD, 512, 0, 0x3001) == GROUP_NOT_SOUND, "3001 is no tag");
    check(one(FLAGS_CURRENT, 512, 0, 0x2000) == GROUP_NOT_SOUND, "a current delete mark");
    check(one(FLAGS_CURRENT, 512, 0, 0x3000) == GROUP_COMMITTED, "committed, nothing pending");
    check(one(FLAGS_PENDING, 512, 0, 0x3000) == GROUP_SETTLED, "open");
    check(one(FLAGS_PENDING, 512, 0, 0x2000) == GROUP_NO_TRANSACTION, "a pending mark alone");
    check(one(FLAGS_ALLOCATED, 512, 0, 0x2000) == GROUP_ALLOCATED, "an allocated mark");
    check(one(FLAGS_VOID, 1, 2, 3) == GROUP_SETTLED, "void: its other words are free");
    check(one(0xFFFF, 17, 5, 0) == GROUP_TORN, "torn: its other words are free");
    check(one(0xFFFF, 17, 0xFFFF, 0xFFFF) == GROUP_NOT_SOUND, "an offset alone is no kind");
    check(one(0xFFFF, 0xFFFF, 0, 0xFFFF) == GROUP_NOT_SOUND, "a length alone is no kind");
    check(one(0xFFFD, 512, 0, 0x1000) == GROUP_NOT_SOUND, "FFFD is no kind");
    check(one(0xFFE0, 512, 0, 0x1000) == GROUP_NOT_SOUND, "FFE0 is no kind");
}

/* Judges a formatted image with an open transaction at 0:0 and two more descriptors. */
static enum group beside_open(struct descriptor first, struct descriptor second)
{
    struct bench b;
    bench_formatted(&b, 512, 3);
    put(&b, 0, 0, OPEN_FLAGS, 512, 0, TAG_TRANSACTION);
    bench_put_descriptor(&b, 0, 1, first);
    bench_put_descriptor(&b, 1, 0, second);
    return bench_group(&b);
}

static void pairs(void)
{
    struct descriptor torn = make(0xFFFF, 0xFFFF, 0xFFFF, 0x1007);
    struct descriptor allocated = make(FLAGS_ALLOCATED, 510, 2, 0x1007);
    struct descriptor pending = make(FLAGS_PENDING, 510, 2, 0x1007);
    struct descriptor mark = make(FLAGS_PENDING, 512, 0, 0x2007);
    struct descriptor current = make(FLAGS_CURRENT, 510, 2, 0x1007);
    struct descriptor open = make(OPEN_FLAGS, 512, 0, 0x3000);
    struct descriptor committed = make(COMMITTED_FLAGS, 512, 0, 0x3000);
    check(beside_open(torn, current) == GROUP_TORN, "torn");
    check(beside_open(torn, torn) == GROUP_NOT_SOUND, "two torn");
    check(beside_open(torn, allocated) == GROUP_NOT_SOUND, "torn and allocated");
    check(beside_open(allocated, allocated) == GROUP_NOT_SOUND, "two allocated");
    check(beside_open(allocated, pending) == GROUP_ALLOCATED, "allocated beside pending");
    check(beside_open(pending, mark) == GROUP_TWO_PENDING, "data and mark count together");
    check(beside_open(pending, current) == GROUP_SETTLED, "one pending and one current");
    check(beside_open(current, current) == GROUP_NOT_SOUND, "two current");
    check(beside_open(open, current) == GROUP_NOT_SOUND, "two open");
    check(beside_open(committed, current) == GROUP_NOT_SOUND, "open and committed");
}

/* A committed transaction at 1:2, two files with one pending descriptor each. */
static void committed_and_none(struct bench *b)
{
    check(bench_group(b) == GROUP_COMMITTED, "committed beside one each");
    put(b, 0, 2, FLAGS_ALLOCATED, 512, 0, 0x1001);
    check(bench_group(b) == GROUP_NOT_SOUND, "committed and allocated");
    put(b, 0, 2, FLAGS_OLD, 512, 0, 0x1001);
    put(b, 1, 2, FLAGS_OLD, 512, 0, TAG_TRANSACTION);
    check(bench_group(b) == GROUP_NO_TRANSACTION, "pending alone");
    put(b, 0, 2, 0xFFFF, 512, 0, 0x1001);
    check(bench_group(b) == GROUP_NOT_SOUND, "pending alone and torn");
}

static void three_together(void)
{
    struct bench b;
    bench_formatted(&b, 512, 3);
    put(&b, 0, 0, OPEN_FLAGS, 512, 0, TAG_TRANSACTION);
    put(&b, 0, 1, FLAGS_PENDING, 512, 0, 0x1001);
    put(&b, 1, 0, FLAGS_PENDING, 512, 0, 0x1001);
    check(bench_group(&b) == GROUP_TWO_PENDING, "two pending");
    put(&b, 1, 1, FLAGS_PENDING, 512, 0, 0x2001);
    check(bench_group(&b) == GROUP_NOT_SOUND, "three pending");
    put(&b, 1, 1, FLAGS_PENDING, 512, 0, 0x2002);
    check(bench_group(&b) == GROUP_TWO_PENDING, "another file with one");
    put(&b, 1, 2, FLAGS_PENDING, 512, 0, 0x2002);
    check(bench_group(&b) == GROUP_NOT_SOUND, "two files with two");
    put(&b, 1, 2, 0xFFFF, 512, 0, 0x2002);
    check(bench_group(&b) == GROUP_NOT_SOUND, "two pending and torn");
    put(&b, 1, 2, COMMITTED_FLAGS, 512, 0, TAG_TRANSACTION);
    put(&b, 0, 0, FLAGS_OLD, 512, 0, TAG_TRANSACTION);
    check(bench_group(&b) == GROUP_NOT_SOUND, "committed beside two pending");
    put(&b, 0, 1, FLAGS_OLD, 512, 0, 0x1001);
    committed_and_none(&b);
}

/* Below n an empty position must be wholly empty. */
static void unlisted_below_n(void)
{
    struct bench b;
    bench_formatted(&b, 512, 3);
    put(&b, 0, 1, FLAGS_OLD, 512, 0, 0x1001);
    check(bench_group(&b) == GROUP_SETTLED, "an empty position below n");
    put(&b, 0, 0, 0xFFFF, 0xFFFF, 1, 0xFFFF);
    check(bench_group(&b) == GROUP_NOT_SOUND, "a length alone below n");
    put(&b, 0, 0, 0xFFFF, 1, 0xFFFF, 0xFFFF);
    check(bench_group(&b) == GROUP_NOT_SOUND, "an offset alone below n");
}

static void sectors_together(void)
{
    struct bench b;
    bench_formatted(&b, 512, 3);
    put(&b, 0, 0, FLAGS_CURRENT, 500, 12, 0x1001);
    put(&b, 0, 1, FLAGS_OLD, 490, 10, 0x1001);
    check(bench_group(&b) == GROUP_SETTLED, "sectors that touch");
    put(&b, 0, 1, FLAGS_OLD, 490, 11, 0x1001);
    check(bench_group(&b) == GROUP_NOT_SOUND, "an odd length reaches into the next sector");
    put(&b, 0, 1, FLAGS_OLD, 504, 0, 0x1001);
    check(bench_group(&b) == GROUP_SETTLED, "size 0 overlaps nothing");
    put(&b, 0, 1, FLAGS_OLD, 490, 9, 0x1001);
    b.image[499] = 0x55;
    check(bench_group(&b) == GROUP_SETTLED, "an odd tail that is not FF");
    b.image[489] = 0x7F;
    check(bench_group(&b) == GROUP_NOT_SOUND, "a byte in the gap");
    b.image[489] = 0xFF;
    b.image[4] = 0xFE;
    check(bench_group(&b) == GROUP_NOT_SOUND, "a byte in the header");
    b.image[4] = 0xFF;
    b.image[1535] = 0xFE;
    check(bench_group(&b) == GROUP_NOT_SOUND, "a byte in the spare");
}

static void headers(void)
{
    struct bench b;
    bench_formatted(&b, 512, 3);
    bench_put_word(&b, 512, 0);
    check(bench_group(&b) == GROUP_NOT_SOUND, "two live units of one number");
    bench_put_word(&b, 512, 2);
    check(bench_group(&b) == GROUP_NOT_SOUND, "a number over U-2");
    bench_put_word(&b, 512, 1);
    bench_put_word(&b, 1024, 1);
    check(bench_group(&b) == GROUP_MOVING_HOME_LIVE, "a copy that is only begun");
    bench_put_word(&b, 1024, 2);
    check(bench_group(&b) == GROUP_NOT_SOUND, "a copy of no unit");
    bench_put_word(&b, 1024, 1);
    bench_put_word(&b, 514, STATE_RETIRED);
    check(bench_group(&b) == GROUP_MOVING_HOME_RETIRED, "an empty unit's copy is complete");
    bench_put_word(&b, 1024, 0);
    check(bench_group(&b) == GROUP_NOT_SOUND, "the pair's numbers differ");
    bench_put_word(&b, 1024, 1);
    bench_put_word(&b, 1026, STATE_LIVE);
    check(bench_group(&b) == GROUP_MOVING_COPY_LIVE, "the copy is live");
    bench_put_word(&b, 514, 0xFFF8);
    check(bench_group(&b) == GROUP_NOT_SOUND, "no such state");
}

/* A retired unit beside a live copy is no home: only what would be copied counts. */
static void retired_units(void)
{
    struct bench b;
    bench_formatted(&b, 512, 3);
    bench_put_word(&b, 514, STATE_RETIRED);
    bench_put_word(&b, 1024, 1);
    bench_put_word(&b, 1026, STATE_LIVE);
    b.image[512 + 4] = 0;
    put(&b, 1, 0, 0xABCD, 512, 9, 9);
    check(bench_group(&b) == GROUP_MOVING_COPY_LIVE, "what is not copied is free");
    put(&b, 1, 1, FLAGS_CURRENT, 400, 0, 0x1001);
    check(bench_group(&b) == GROUP_NOT_SOUND, "a copy without its sector");
    put(&b, 2, 1, FLAGS_CURRENT, 512, 0, 0x1001);
    check(bench_group(&b) == GROUP_MOVING_COPY_LIVE, "a copy with it");
    put(&b, 1, 1, FLAGS_CURRENT, 401, 0, 0x1001);
    check(bench_group(&b) == GROUP_NOT_SOUND, "an odd offset cannot be copied");
    put(&b, 1, 1, FLAGS_CURRENT, 400, 258, 0x1001);
    put(&b, 2, 1, FLAGS_CURRENT, 254, 258, 0x1001);
    check(bench_group(&b) == GROUP_NOT_SOUND, "a great length cannot be copied");
    put(&b, 1, 1, FLAGS_CURRENT, 514, 0, 0x1001);
    put(&b, 2, 1, FLAGS_CURRENT, 512, 0, 0x1001);
    check(bench_group(&b) == GROUP_NOT_SOUND, "a sector outside the unit cannot be copied");
    put(&b, 1, 1, FLAGS_CURRENT, 400, 0, 0x1001);
    check(answer_is(store_mount(b.flash, PLENTY), DONE, 1, 0, 0), "one erase ends it");
    check(store_read_handle(b.flash, (struct handle){ 1, 1 }).file == 1, "the copy is the home");
}

/* With no gap, position n is the lowest sector's first bytes, here like a current descriptor. */
static void content_like_a_descriptor(void)
{
    struct bench b;
    bench_formatted(&b, 512, 3);
    put(&b, 0, 0, FLAGS_CURRENT, 24, 256, 0x1001);
    put(&b, 0, 1, FLAGS_CURRENT, 512, 0, 0x1002);
    check(bench_group(&b) == GROUP_SETTLED, "the array ends at the lowest sector");
    check(answer_refuses(store_read_handle(b.flash, (struct handle){ 0, 1 }), BAD_HANDLE), "content is no descriptor");
    check(answer_refuses(store_read(b.flash, 2), ABSENT), "nor a file");
    check(store_read(b.flash, 1).start == 24, "the file that has the content");
}

/* After a reclaim the positions let go are used again, the lowest first; by the old rule, for the other unit has the smaller gap. */
static void positions_used_again(void)
{
    struct bench b;
    before_case_k(&b);
    check(store_write(b.flash, 2, zeros, 256, 8).steps == 8, "reclaim only");
    check(store_mount(b.flash, PLENTY).number == DONE, "then a mount");
    check(answer_is(store_begin_by(b.flash, LOWEST, PLENTY), DONE, 5, 0, 0), "position 0 is used again");
    check(answer_is(store_write_by(b.flash, LOWEST, 2, NULL, 0, PLENTY), DONE, 5, 0, 1), "then position 1");
    check(answer_is(store_delete_by(b.flash, LOWEST, 1, PLENTY), DONE, 5, 0, 2), "then position 2");
    check(answer_is(store_write_by(b.flash, LOWEST, 3, NULL, 0, PLENTY), DONE, 5, 0, 4), "then n");
    check(answer_is(store_commit(b.flash, PLENTY), DONE, 6, 0, 0), "a delete, two files");
    check(answer_refuses(store_read(b.flash, 1), ABSENT), "file 1 is gone");
}

void figures_of_images(void)
{
    single_descriptors();
    pairs();
    three_together();
    unlisted_below_n();
    sectors_together();
    headers();
    retired_units();
    content_like_a_descriptor();
    positions_used_again();
}
