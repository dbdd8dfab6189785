/* Refusals 2 to 11, their order, and geometries. */
#include "figures.h"

#include <string.h>

#include "figures_common.h"

static void geometry(uint32_t unit_size, uint32_t units, size_t length, bool good, const char *what)
{
    static uint8_t image[MAX_IMAGE + 1];
    memset(image, 0xFF, sizeof image);
    struct flash f = { image, length, unit_size, units };
    struct answer a = store_format(f, PLENTY);
    if (good) {
        check(answer_is(a, DONE, 2 * (units - 1), 0, 0) && store_judge(f) == JUDGED_SETTLED, what);
        return;
    }
    check(answer_refuses(a, BAD_GEOMETRY) && store_judge(f) == JUDGED_BAD_GEOMETRY, what);
    check(answer_refuses(store_mount(f, 9), BAD_GEOMETRY), what);
    check(answer_refuses(store_begin(f, 9), BAD_GEOMETRY), what);
    check(answer_refuses(store_write(f, 999, NULL, 999, 9), BAD_GEOMETRY), what);
    check(answer_refuses(store_delete(f, 999, 9), BAD_GEOMETRY), what);
    check(answer_refuses(store_commit(f, 9), BAD_GEOMETRY), what);
    check(answer_refuses(store_abort(f, 9), BAD_GEOMETRY), what);
    check(answer_refuses(store_read(f, 999), BAD_GEOMETRY), what);
    check(answer_refuses(store_read_transaction(f, 999), BAD_GEOMETRY), what);
    check(answer_refuses(store_read_handle(f, (struct handle){ 99, 99 }), BAD_GEOMETRY), what);
}

static void geometries(void)
{
    geometry(512, 3, 1536, true, "512 x 3");
    geometry(512, 64, 32768, true, "512 x 64");
    geometry(1024, 64, 65536, true, "1024 x 64");
    geometry(2048, 32, 65536, true, "2048 x 32");
    geometry(4096, 16, 65536, true, "4096 x 16");
    geometry(512, 2, 1024, false, "512 x 2");
    geometry(512, 65, 33280, false, "512 x 65");
    geometry(4096, 17, 65536, false, "4096 x 17");
    geometry(2048, 33, 65536, false, "2048 x 33");
    geometry(0, 3, 0, false, "0 x 3");
    geometry(512, 0, 0, false, "512 x 0");
    geometry(256, 3, 768, false, "256 x 3");
    geometry(768, 3, 2304, false, "768 x 3");
    geometry(8192, 8, 65536, false, "8192 x 8");
    geometry(511, 3, 1533, false, "511 x 3");
    geometry(512, 3, 1535, false, "one byte less");
    geometry(512, 3, 1537, false, "one byte more");
    geometry(512, 3, 0, false, "no image");
    geometry(UINT32_MAX, UINT32_MAX, 1, false, "numbers whose product wraps");
    geometry(65536, 65536, 0, false, "a product that wraps to 0");
}

/* What every call but format and mount answers on an image that is not settled. */
static void all_refuse(const struct bench *b, uint32_t number, const char *what)
{
    struct bench c;
    bench_copy(&c, b);
    check(answer_refuses(store_begin(c.flash, 9), number), what);
    check(answer_refuses(store_write(c.flash, 999, NULL, 999, 9), number), what);
    check(answer_refuses(store_delete(c.flash, 999, 9), number), what);
    check(answer_refuses(store_commit(c.flash, 9), number), what);
    check(answer_refuses(store_abort(c.flash, 9), number), what);
    check(answer_refuses(store_read(c.flash, 999), number), what);
    check(answer_refuses(store_read_transaction(c.flash, 999), number), what);
    check(answer_refuses(store_read_handle(c.flash, (struct handle){ 99, 99 }), number), what);
    check(bench_same(b, &c), what);
}

static void bad_image_and_unsettled(void)
{
    struct bench b;
    bench_erased(&b, 512, 3);
    all_refuse(&b, BAD_IMAGE, "an erased image is not sound");
    check(answer_refuses(store_mount(b.flash, 9), BAD_IMAGE), "mount of an erased image");
    check(answer_is(store_format(b.flash, 3), STOPPED, 3, 0, 0), "a stopped format");
    check(store_judge(b.flash) == JUDGED_BAD_IMAGE, "it begins no history");
    check(answer_is(store_format(b.flash, PLENTY), DONE, 2 + 4, 0, 0), "two erases, four words");
    check(answer_is(store_format(b.flash, 6), DONE, 6, 0, 0), "the allowance just suffices");
    check(answer_is(store_begin(b.flash, 1), STOPPED, 1, 0, 0), "a stopped begin");
    all_refuse(&b, UNSETTLED, "a torn descriptor");
}

/* On a settled image with file 7 = 00 committed and no transaction. */
static void without_transaction(struct bench *b)
{
    struct flash f = b->flash;
    check(answer_refuses(store_write(f, 256, zeros, 257, 0), BAD_FILE), "5 before 6");
    check(answer_refuses(store_write(f, 255, zeros, 257, 0), TOO_LONG), "6 before 7");
    check(answer_refuses(store_write(f, 255, zeros, 256, 0), NO_TRANSACTION), "write: 7");
    check(answer_refuses(store_delete(f, 256, 0), BAD_FILE), "delete: 5 before 7");
    check(answer_refuses(store_delete(f, 8, 0), NO_TRANSACTION), "delete: 7 before 9");
    check(answer_refuses(store_commit(f, 0), NO_TRANSACTION), "commit: 7");
    check(answer_refuses(store_abort(f, 0), NO_TRANSACTION), "abort: 7");
    check(answer_refuses(store_read_transaction(f, 8), NO_TRANSACTION), "view: 7 before 9");
    check(answer_refuses(store_read(f, 8), ABSENT), "read: 9");
    check(answer_is(store_mount(f, 0), DONE, 0, 0, 0), "nothing to mount: DONE at 0");
    check(answer_is(store_begin(f, 0), STOPPED, 0, 0, 0), "begin at 0: STOPPED");
}

static void with_transaction(struct bench *b)
{
    struct flash f = b->flash;
    check(answer_refuses(store_begin(f, 0), OPEN), "begin: 8");
    check(answer_absent(store_delete(f, 8, 0), COMMITTED_BEFORE), "delete: 9");
    check(answer_absent(store_read_transaction(f, 8), COMMITTED_BEFORE), "view: 9");
    check(store_read_transaction(f, 7).from == COMMITTED_BEFORE, "view: file 7 was committed before");
    check(store_read(f, 7).from == NOT_SAID, "the committed view does not say");
    check(store_delete(f, 7, PLENTY).number == DONE, "delete of file 7");
    check(answer_absent(store_read_transaction(f, 7), THIS_TRANSACTION), "view: deleted is absent");
    check(store_read(f, 7).number == DONE, "the committed view still has it");
    check(answer_absent(store_delete(f, 7, PLENTY), THIS_TRANSACTION), "a second delete: 9");
    check(store_write(f, 7, NULL, 0, PLENTY).number == DONE, "written again, empty");
    check(store_read_transaction(f, 7).number == DONE, "empty is not absent");
    check(store_read_transaction(f, 7).from == THIS_TRANSACTION, "view: written in this transaction");
    check(store_write(f, 8, NULL, 0, PLENTY).number == DONE, "file 8 written");
    check(store_delete(f, 8, PLENTY).number == DONE, "and deleted in the same transaction");
    check(answer_absent(store_read_transaction(f, 8), THIS_TRANSACTION), "view: 9 of this transaction");
}

static void bad_handles(struct bench *b)
{
    struct flash f = b->flash;
    check(store_read_handle(f, (struct handle){ 0, 1 }).file == 7, "0:1 is file 7");
    check(answer_refuses(store_read_handle(f, (struct handle){ 0, 0 }), BAD_HANDLE), "old: 11");
    check(answer_refuses(store_read_handle(f, (struct handle){ 0, 2 }), BAD_HANDLE), "n: 11");
    check(answer_refuses(store_read_handle(f, (struct handle){ 1, 0 }), BAD_HANDLE), "n = 0: 11");
    check(answer_refuses(store_read_handle(f, (struct handle){ 2, 0 }), BAD_HANDLE), "U-1: 11");
    check(answer_refuses(store_read_handle(f, (struct handle){ 0, UINT32_MAX }), BAD_HANDLE), "a great position: 11");
    check(answer_refuses(store_read_handle(f, (struct handle){ UINT32_MAX, 1 }), BAD_HANDLE), "a great unit: 11");
}

void figures_of_refusals(void)
{
    struct bench b;
    geometries();
    bad_image_and_unsettled();
    bench_formatted(&b, 512, 3);
    store_begin(b.flash, PLENTY);
    store_write(b.flash, 7, zeros, 1, PLENTY);
    check(answer_refuses(store_read_handle(b.flash, (struct handle){ 0, 1 }), BAD_HANDLE), "pending data is no handle's");
    store_commit(b.flash, PLENTY);
    without_transaction(&b);
    bad_handles(&b);
    store_begin(b.flash, PLENTY);
    with_transaction(&b);
}
