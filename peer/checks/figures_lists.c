/* Lists written out by hand: the image after each stop is the image after the first steps. */
#include "figures.h"

#include "figures_common.h"

enum { ERASE = 0x10000 };

/* The word that stands at an address after the step; ERASE with the unit's start is an erase. */
struct step {
    uint32_t address;
    uint32_t value;
};

typedef struct answer call(struct flash f, uint32_t allowance);

static void make_step(struct bench *b, struct step s)
{
    if (s.value == ERASE)
        flash_erase(&b->flash, s.address / b->flash.unit_size);
    else
        bench_put_word(b, s.address, (uint16_t)s.value);
}

static void list_is(const struct bench *from, call *call, const struct step *list, uint32_t count, const char *what)
{
    struct bench due, got;
    bench_copy(&due, from);
    for (uint32_t k = 0; k <= count; k++) {
        bench_copy(&got, from);
        struct answer a = call(got.flash, k);
        check(a.number == (k < count ? STOPPED : DONE) && a.steps == k, what);
        check(bench_same(&got, &due), what);
        if (k < count)
            make_step(&due, list[k]);
    }
}

#define LIST_IS(from, call, list, what) list_is(from, call, list, sizeof(list) / sizeof((list)[0]), what)

static const uint8_t five[] = { 0x11, 0x22, 0xFF, 0xFF, 0x55 };

static struct answer write_seven(struct flash f, uint32_t allowance)
{
    return store_write(f, 7, five, 5, allowance);
}

static struct answer write_eight_empty(struct flash f, uint32_t allowance)
{
    return store_write(f, 8, NULL, 0, allowance);
}

static struct answer delete_seven(struct flash f, uint32_t allowance)
{
    return store_delete(f, 7, allowance);
}

static void lists_of_a_first_commit(struct bench *b)
{
    static const struct step format[] = { { 512, ERASE }, { 0, 0 }, { 2, 0xFFFE }, { 512, 1 }, { 514, 0xFFFE } };
    static const struct step begin[] = { { 22, 0x3000 }, { 20, 0 }, { 18, 512 }, { 16, 0xFFFE }, { 16, 0xFFFC } };
    static const struct step write[] = { { 30, 0x1007 },  { 28, 5 },       { 26, 506 },   { 24, 0xFFFE },
                                         { 506, 0x2211 }, { 510, 0xFF55 }, { 24, 0xFFFC } };
    static const struct step commit[] = { { 16, 0xFFF8 }, { 24, 0xFFF8 }, { 16, 0xFFF0 } };
    bench_erased(b, 512, 3);
    b->image[700] = 0;
    LIST_IS(b, store_format, format, "format's list");
    store_format(b->flash, PLENTY);
    LIST_IS(b, store_begin, begin, "begin's list");
    store_begin(b->flash, PLENTY);
    LIST_IS(b, write_seven, write, "write's list, a word FFFF left out");
    store_write(b->flash, 7, five, 5, PLENTY);
    LIST_IS(b, store_commit, commit, "commit's list");
    store_commit(b->flash, PLENTY);
}

/* Begin at 0:2, file 7 pending at 0:3, file 8 pending at 0:4. */
static void lists_of_a_second_transaction(struct bench *b)
{
    static const struct step rewrite[] = { { 62, 0x2007 }, { 60, 0 }, { 58, 500 }, { 56, 0xFFFE }, { 56, 0xFFFC }, { 40, 0xFFF0 } };
    static const struct step commit[] = { { 32, 0xFFF8 }, { 24, 0xFFF0 }, { 40, 0xFFF8 }, { 48, 0xFFF8 }, { 32, 0xFFF0 } };
    static const struct step commit_delete[] = { { 32, 0xFFF8 }, { 48, 0xFFF8 }, { 24, 0xFFF0 }, { 56, 0xFFF0 }, { 32, 0xFFF0 } };
    static const struct step abort[] = { { 32, 0xFFF0 }, { 40, 0xFFF0 }, { 48, 0xFFF0 } };
    store_begin(b->flash, PLENTY);
    write_seven(b->flash, PLENTY);
    write_eight_empty(b->flash, PLENTY);
    LIST_IS(b, store_commit, commit, "commit's list, a file replaced");
    LIST_IS(b, store_abort, abort, "abort's list");
    LIST_IS(b, store_mount, abort, "mount's list, the same");
    LIST_IS(b, delete_seven, rewrite, "delete's list, an earlier pending one");
    delete_seven(b->flash, PLENTY);
    LIST_IS(b, store_commit, commit_delete, "commit's list, a file deleted");
}

/* The delete is stopped before its last step, then at a torn descriptor. */
static void lists_of_mounts(const struct bench *second)
{
    static const struct step two[] = { { 32, 0xFFF0 }, { 40, 0xFFF0 }, { 48, 0xFFF0 }, { 56, 0xFFF0 } };
    static const struct step torn[] = { { 56, 0 }, { 32, 0xFFF0 }, { 40, 0xFFF0 }, { 48, 0xFFF0 } };
    static const struct step allocated[] = { { 56, 0xFFF0 }, { 32, 0xFFF0 }, { 40, 0xFFF0 }, { 48, 0xFFF0 } };
    static const struct step committed[] = { { 40, 0xFFF8 }, { 48, 0xFFF8 }, { 32, 0xFFF0 } };
    struct bench b;
    bench_copy(&b, second);
    bench_put_word(&b, 40, 0xFFFC);
    LIST_IS(&b, store_mount, two, "mount's list, two pending");
    for (uint32_t i = 56; i < 64; i++)
        b.image[i] = 0xFF;
    delete_seven(b.flash, 1);
    LIST_IS(&b, store_mount, torn, "mount's list, torn");
    bench_put_word(&b, 56, 0xFFFF);
    bench_put_word(&b, 62, 0xFFFF);
    delete_seven(b.flash, 4);
    LIST_IS(&b, store_mount, allocated, "mount's list, allocated");
    store_mount(b.flash, 1);
    store_commit(b.flash, 2);
    LIST_IS(&b, store_mount, committed, "mount's list, committed");
}

static struct answer write_great(struct flash f, uint32_t allowance)
{
    return store_write(f, 9, zeros, 256, allowance);
}

/* File 7 current at 0:1, 256 old bytes at 0:2, a mark pending at 0:4; unit 1 is full. */
static void before_reclaim(struct bench *b)
{
    bench_formatted(b, 512, 3);
    store_begin(b->flash, PLENTY);
    write_seven(b->flash, PLENTY);
    store_write(b->flash, 1, zeros, 256, PLENTY);
    store_write(b->flash, 2, zeros, 256, PLENTY);
    store_commit(b->flash, PLENTY);
    store_begin(b->flash, PLENTY);
    store_delete(b->flash, 1, PLENTY);
    store_commit(b->flash, PLENTY);
    store_begin(b->flash, PLENTY);
    store_delete(b->flash, 7, PLENTY);
}

/* Only the reclaim and the first steps after it: the write itself is written out elsewhere. */
static void list_of_a_reclaim(void)
{
    static const struct step list[] = { { 1024, 0 },      { 1048, 0xFFF8 }, { 1050, 506 },    { 1052, 5 },      { 1054, 0x1007 },
                                        { 1530, 0x2211 }, { 1534, 0xFF55 }, { 1080, 0xFFFC }, { 1082, 506 },    { 1084, 0 },
                                        { 1086, 0x3000 }, { 1088, 0xFFFC }, { 1090, 506 },    { 1092, 0 },      { 1094, 0x2007 },
                                        { 2, 0xFFFC },    { 1026, 0xFFFE }, { 0, ERASE },     { 1046, 0x1009 }, { 1044, 256 },
                                        { 1042, 250 },    { 1040, 0xFFFE }, { 1274, 0 },      { 1276, 0 } };
    struct bench b, due, got;
    before_reclaim(&b);
    bench_copy(&due, &b);
    for (uint32_t k = 0; k <= 24; k++) {
        bench_copy(&got, &b);
        check(answer_is(write_great(got.flash, k), STOPPED, k, 0, 0), "a reclaim's stops");
        check(bench_same(&got, &due), "a reclaim's list");
        if (k < 24)
            make_step(&due, list[k]);
    }
    struct answer a = write_great(b.flash, PLENTY);
    check(answer_is(a, DONE, 18 + 133, 0, 0), "a reclaim with sectors to copy");
}

void figures_of_lists(void)
{
    struct bench b;
    lists_of_a_first_commit(&b);
    lists_of_a_second_transaction(&b);
    lists_of_mounts(&b);
    list_of_a_reclaim();
}
