/* The figures A to K of the definition, the limits of a content and of a file's number, and the bound of a mount. */
#include "figures.h"

#include <string.h>

#include "../store/listing.h"
#include "figures_common.h"

static const uint8_t abc[] = { 0x61, 0x62, 0x63 };

/* Cases A to D, each checked as it is made. */
static void cases_a_to_d(struct bench *b)
{
    bench_erased(b, 512, 3);
    check(answer_is(store_format(b->flash, PLENTY), DONE, 4, 0, 0), "A: format takes 4 steps");
    check(store_judge(b->flash) == JUDGED_SETTLED, "A: settled");
    check(answer_is(store_begin(b->flash, PLENTY), DONE, 5, 0, 0), "B: begin, 5 steps, 0:0");
    check(answer_is(store_write(b->flash, 7, abc, 3, PLENTY), DONE, 7, 0, 1), "C: 7 steps, 0:1");
    check(unit_descriptor(&b->flash, 0, 1).offset == 508, "C: offset 508");
    check(flash_word(&b->flash, 508) == 0x6261, "C: first word 6261");
    check(flash_word(&b->flash, 510) == 0xFF63, "C: second word FF63");
    check(answer_is(store_write(b->flash, 9, NULL, 0, PLENTY), DONE, 5, 0, 2), "D: 5 steps, 0:2");
}

static void check_both_files(struct bench *b, const char *what)
{
    struct answer seven = store_read(b->flash, 7);
    struct answer nine = store_read(b->flash, 9);
    check(answer_content_is(b, seven, abc, 3) && seven.start == 508, what);
    check(seven.at.unit == 0 && seven.at.position == 1 && seven.file == 0, what);
    check(answer_is(nine, DONE, 0, 0, 2), what);
    check(answer_refuses(store_read(b->flash, 8), ABSENT), what);
    struct answer by_handle = store_read_handle(b->flash, (struct handle){ 0, 1 });
    check(answer_content_is(b, by_handle, abc, 3) && by_handle.file == 7, what);
    check(by_handle.at.unit == 0 && by_handle.at.position == 0, what);
    by_handle = store_read_handle(b->flash, (struct handle){ 0, 2 });
    check(answer_content_is(b, by_handle, abc, 0) && by_handle.file == 9, what);
}

static void cases_e_and_f(const struct bench *d)
{
    struct bench b;
    char text[MAX_LISTING];
    bench_copy(&b, d);
    check(answer_is(store_commit(b.flash, 0), STOPPED, 0, 0, 0), "E: stopped at 0");
    check(bench_same(&b, d), "E: no byte changes");
    check(answer_is(store_mount(b.flash, PLENTY), DONE, 3, 0, 0), "E: mount takes 3 steps");
    listing_text(b.flash, "|", text);
    check(strcmp(text, "unit=512|units=3|open=0|files=0") == 0, "E: no files");
    bench_copy(&b, d);
    check(answer_is(store_commit(b.flash, 1), STOPPED, 1, 0, 0), "F: stopped at 1");
    check(store_judge(b.flash) == JUDGED_UNSETTLED, "F: unsettled");
    check(answer_is(store_mount(b.flash, PLENTY), DONE, 3, 0, 0), "F: mount takes 3 steps");
    check_both_files(&b, "F: both files");
}

static void case_g(struct bench *b)
{
    char text[MAX_LISTING];
    check(answer_is(store_commit(b->flash, PLENTY), DONE, 4, 0, 0), "G: commit takes 4 steps");
    check_both_files(b, "G: both files");
    listing_text(b->flash, "\n", text);
    check(strcmp(text,
                 "unit=512\nunits=3\nopen=0\nfiles=2\n"
                 "file=7 length=3 at=0:1\nfile=9 length=0 at=0:2") == 0,
          "G: the listing, whole");
}

static uint32_t home_gap(const struct bench *b, uint32_t logical)
{
    struct store s;
    judge(&b->flash, &s);
    return array_gap(s.home[logical].array);
}

/* H to K are made with the old rule. */
static void cases_h_to_j(void)
{
    struct bench h, b;
    bench_formatted(&h, 512, 3);
    store_begin_by(h.flash, LOWEST, PLENTY);
    check(answer_is(store_write_by(h.flash, LOWEST, 1, zeros, 256, PLENTY), DONE, 133, 0, 1), "H: unit 0");
    check(answer_is(store_write_by(h.flash, LOWEST, 2, zeros, 256, PLENTY), DONE, 133, 1, 0), "H: unit 1");
    check(home_gap(&h, 0) == 224 && home_gap(&h, 1) == 232, "H: gaps 224 and 232");
    bench_copy(&b, &h);
    check(answer_is(store_write_by(b.flash, LOWEST, 3, zeros, 216, PLENTY), DONE, 113, 0, 2), "H: 216 bytes to unit 0");
    bench_copy(&b, &h);
    check(answer_is(store_write_by(b.flash, LOWEST, 3, zeros, 224, PLENTY), DONE, 117, 1, 1), "I: 224 bytes to unit 1");
    bench_copy(&b, &h);
    check(answer_refuses(store_write_by(b.flash, LOWEST, 3, zeros, 225, PLENTY), NO_ROOM), "J: 225 bytes get NO ROOM");
    check(bench_same(&b, &h), "J: no byte changes");
}

static void case_k(void)
{
    struct bench b, stopped;
    before_case_k(&b);
    bench_copy(&stopped, &b);
    check(answer_is(store_write_by(b.flash, LOWEST, 2, zeros, 256, PLENTY), DONE, 141, 0, 0), "K: 141 steps, handle 0:0");
    check(unit_logical(&b.flash, 2) == 0 && unit_state(&b.flash, 2) == STATE_LIVE, "K: unit 0 is on unit 2");
    check(flash_unit_erased(&b.flash, 0), "K: the old home is erased");
    check(answer_is(store_write_by(stopped.flash, LOWEST, 2, zeros, 256, 7), STOPPED, 7, 0, 0), "K: at 7");
    check(bench_group(&stopped) == GROUP_MOVING_COPY_LIVE, "K: moving at 7");
    before_case_k(&stopped);
    check(answer_is(store_write_by(stopped.flash, LOWEST, 2, zeros, 256, 8), STOPPED, 8, 0, 0), "K: at 8");
    check(bench_group(&stopped) == GROUP_SETTLED, "K: reclaimed after 8 steps");
    check(answer_is(store_write_by(stopped.flash, LOWEST, 2, zeros, 256, PLENTY), DONE, 133, 0, 0), "K: the store itself takes 133 steps");
    check(bench_same(&b, &stopped), "K: the same image either way");
    check(store_read_transaction(b.flash, 2).length == 256, "K: file 2 in the transaction view");
}

static void content_and_file_limits(void)
{
    struct bench b;
    bench_formatted(&b, 512, 3);
    store_begin(b.flash, PLENTY);
    check(store_write(b.flash, 255, zeros, 256, PLENTY).number == DONE, "256 bytes, file 255");
    check(store_read_transaction(b.flash, 255).length == 256, "file 255 is in the view");
    check(answer_refuses(store_write(b.flash, 255, zeros, 257, PLENTY), TOO_LONG), "257 is 6");
    check(answer_refuses(store_write(b.flash, 256, zeros, 1, PLENTY), BAD_FILE), "256 is 5");
    check(answer_refuses(store_delete(b.flash, 256, PLENTY), BAD_FILE), "delete 256 is 5");
    check(answer_refuses(store_read(b.flash, 256), BAD_FILE), "read 256 is 5");
    check(answer_refuses(store_read_transaction(b.flash, UINT32_MAX), BAD_FILE), "view: 5");
}

void figures_of_the_page(void)
{
    struct bench b;
    cases_a_to_d(&b);
    cases_e_and_f(&b);
    case_g(&b);
    cases_h_to_j();
    case_k();
    content_and_file_limits();
    check(mount_bound(1024, 8) == 1395, "the bound of a mount for 1,024 and 8");
}
