/* Each group of "sound" as a stopped call leaves it, with the mount that ends it. */
#include "figures.h"

#include <string.h>

#include "figures_common.h"

/* Mounts stopped anywhere and mounted again leave the image that one mount leaves. */
static void check_restarts(const struct bench *b, uint32_t steps, const char *what)
{
    struct bench whole, parts;
    bench_copy(&whole, b);
    store_mount(whole.flash, PLENTY);
    for (uint32_t k = 0; k <= steps; k++) {
        bench_copy(&parts, b);
        struct answer a = store_mount(parts.flash, k);
        check(answer_is(a, k < steps ? STOPPED : DONE, k, 0, 0), what);
        a = store_mount(parts.flash, PLENTY);
        check(answer_is(a, DONE, steps - k, 0, 0) && bench_same(&whole, &parts), what);
    }
}

static void ends(const struct bench *b, enum group group, uint32_t steps, const char *what)
{
    struct bench m;
    bench_copy(&m, b);
    check(bench_group(&m) == group && store_judge(m.flash) == JUDGED_UNSETTLED, what);
    check(answer_is(store_mount(m.flash, PLENTY), DONE, steps, 0, 0), what);
    check(store_judge(m.flash) == JUDGED_SETTLED, what);
    check(answer_refuses(store_read_transaction(m.flash, 7), NO_TRANSACTION), what);
    check(answer_is(store_mount(m.flash, 0), DONE, 0, 0, 0), what);
    check_restarts(b, steps, what);
}

/* File 7 = 00 00 committed at 0:1, a transaction open at 0:2. */
static void begun(struct bench *b)
{
    bench_formatted(b, 512, 3);
    store_begin(b->flash, PLENTY);
    store_write(b->flash, 7, zeros, 2, PLENTY);
    store_commit(b->flash, PLENTY);
    store_begin(b->flash, PLENTY);
}

static void unfinished_stores(void)
{
    struct bench b;
    for (uint32_t k = 1; k <= 3; k++) {
        begun(&b);
        check(answer_is(store_write(b.flash, 8, zeros, 4, k), STOPPED, k, 0, 0), "torn: stopped");
        ends(&b, GROUP_TORN, 2, "torn, then the transaction");
        store_mount(b.flash, 1);
        check(store_judge(b.flash) == JUDGED_SETTLED, "mended alone: settled");
        check(store_read_transaction(b.flash, 7).number == DONE, "and the transaction goes on");
        check(flash_word(&b.flash, 16 + 3 * 8) == 0, "torn becomes 0000");
    }
    for (uint32_t k = 4; k <= 6; k++) {
        begun(&b);
        store_write(b.flash, 8, zeros, 4, k);
        ends(&b, GROUP_ALLOCATED, 2, "allocated, then the transaction");
        store_mount(b.flash, 1);
        check(flash_word(&b.flash, 16 + 3 * 8) == FLAGS_OLD, "allocated becomes old");
    }
}

static void pending_left(void)
{
    struct bench b;
    begun(&b);
    store_write(b.flash, 7, zeros, 0, PLENTY);
    check(answer_is(store_write(b.flash, 7, zeros, 4, 7), STOPPED, 7, 0, 0), "earlier one left");
    ends(&b, GROUP_TWO_PENDING, 3, "two pending descriptors of one file");
    store_mount(b.flash, 1);
    ends(&b, GROUP_TWO_PENDING_NO_TRANSACTION, 2, "two pending and no transaction");
    store_mount(b.flash, 1);
    ends(&b, GROUP_NO_TRANSACTION, 1, "pending after a stopped mount");
    begun(&b);
    store_delete(b.flash, 7, PLENTY);
    check(answer_is(store_abort(b.flash, 1), STOPPED, 1, 0, 0), "a stopped abort");
    ends(&b, GROUP_NO_TRANSACTION, 1, "pending with no transaction");
    store_mount(b.flash, PLENTY);
    check(store_read(b.flash, 7).number == DONE, "an aborted delete deletes nothing");
}

static void stopped_commits(void)
{
    struct bench b;
    for (uint32_t k = 0; k <= 5; k++) {
        begun(&b);
        store_delete(b.flash, 7, PLENTY);
        store_write(b.flash, 8, zeros, 1, PLENTY);
        check(answer_is(store_commit(b.flash, k), k < 5 ? STOPPED : DONE, k, 0, 0), "commit");
        if (k > 0 && k < 5)
            ends(&b, GROUP_COMMITTED, 5 - k, "a committed transaction");
        store_mount(b.flash, PLENTY);
        check(store_read(b.flash, 7).number == (k > 0 ? ABSENT : DONE), "file 7 by the commit");
        check(store_read(b.flash, 8).number == (k > 0 ? DONE : ABSENT), "file 8 by the commit");
    }
}

static void moving_units(void)
{
    struct bench b;
    for (uint32_t k = 1; k <= 7; k++) {
        enum group g = k <= 5 ? GROUP_MOVING_HOME_LIVE : k == 6 ? GROUP_MOVING_HOME_RETIRED : GROUP_MOVING_COPY_LIVE;
        before_case_k(&b);
        check(answer_is(store_write(b.flash, 2, zeros, 256, k), STOPPED, k, 0, 0), "moving");
        ends(&b, g, 8 - k + 1, "the move, then the transaction");
        store_mount(b.flash, 8 - k);
        check(store_judge(b.flash) == JUDGED_SETTLED, "moved alone: settled");
        check(store_read_transaction(b.flash, 1).number == DONE, "the transaction is open still");
    }
}

/* A moving unit's copy may have any of its words, and mount programs the missing ones. */
static void any_subset_of_the_copy(void)
{
    struct bench b, whole;
    before_case_k(&b);
    store_write(b.flash, 2, zeros, 256, 1);
    bench_copy(&whole, &b);
    store_mount(whole.flash, PLENTY);
    uint32_t tag = 2 * 512 + 16 + 3 * 8 + AT_TAG;
    bench_put_word(&b, tag, TAG_TRANSACTION);
    ends(&b, GROUP_MOVING_HOME_LIVE, 7, "a copy with its tag alone");
    struct bench m;
    bench_copy(&m, &b);
    store_mount(m.flash, PLENTY);
    check(bench_same(&whole, &m), "a copy begun elsewhere ends the same");
    bench_put_word(&b, tag, TAG_TRANSACTION + 1);
    check(bench_group(&b) == GROUP_NOT_SOUND, "a word that is not the copy's");
    bench_put_word(&b, tag, TAG_TRANSACTION);
    bench_put_word(&b, 2, STATE_RETIRED);
    check(bench_group(&b) == GROUP_NOT_SOUND, "retired beside a copy that is not complete");
}

void figures_of_sound(void)
{
    unfinished_stores();
    pending_left();
    stopped_commits();
    moving_units();
    any_subset_of_the_copy();
}
