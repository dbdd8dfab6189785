#include "run.h"

#include <inttypes.h>
#include <stdio.h>
#include <stdlib.h>
#include <string.h>
#include <time.h>

struct counts counts;
const struct call call_mount = { .kind = CALL_MOUNT };

static struct bench start;

void run_start(struct run *r)
{
    bench_copy(&start, &r->bench);
    r->calls = 0;
    r->last_changed_nothing = false;
}

void run_copy(struct run *to, const struct run *from)
{
    bench_copy(&to->bench, &from->bench);
    to->calls = from->calls;
    to->last_changed_nothing = from->last_changed_nothing;
    memcpy(to->trail, from->trail, from->calls * sizeof from->trail[0]);
}

static void print_content(const struct call *c)
{
    for (uint32_t i = 0; i < c->length; i++)
        printf("%02x", c->content[i]);
    if (c->length == 0)
        putchar('-');
}

void call_print(const struct call *c, uint32_t allowance)
{
    static const char *const name[CALL_KINDS] = { "format", "mount", "begin", "write",  "delete",
                                                  "commit", "abort", "read",  "readtx", "readat" };
    bool stores = c->kind == CALL_BEGIN || c->kind == CALL_WRITE || c->kind == CALL_DELETE;
    printf("%s%s", name[c->kind], stores && c->rule == LOWEST ? "-lowest" : "");
    if (c->kind == CALL_READAT)
        printf(" %" PRIu32 " %" PRIu32, c->at.unit, c->at.position);
    if (c->kind == CALL_WRITE || c->kind == CALL_DELETE || c->kind == CALL_READ || c->kind == CALL_READTX)
        printf(" %" PRIu32, c->file);
    if (c->kind == CALL_WRITE) {
        putchar(' ');
        print_content(c);
    }
    if (c->kind < CALL_READ)
        printf(" %" PRIu32, allowance);
    putchar('\n');
}

void run_violation(const struct run *r, const char *what)
{
    printf("violation: %s\nthe script that shows it:\n", what);
    printf("new %" PRIu32 " %" PRIu32 "\n", start.flash.unit_size, start.flash.units);
    printf("size %zu\n", start.flash.length);
    for (uint32_t i = 0; i < start.flash.length; i++)
        if (start.image[i] != 0xFF)
            printf("put %" PRIu32 " %d\n", i, start.image[i]);
    for (uint32_t i = 0; i < r->calls; i++)
        call_print(r->trail[i].call, r->trail[i].allowance);
    printf("judge\nlist\ncalls=%" PRIu64 " violations=1\n", counts.calls);
    exit(EXIT_FAILURE);
}

void run_require(const struct run *r, bool ok, const char *what)
{
    if (!ok)
        run_violation(r, what);
}

struct answer call_make(struct flash f, const struct call *c, uint32_t allowance)
{
    switch (c->kind) {
    case CALL_FORMAT: return store_format(f, allowance);
    case CALL_MOUNT: return store_mount(f, allowance);
    case CALL_BEGIN: return store_begin_by(f, c->rule, allowance);
    case CALL_WRITE: return store_write_by(f, c->rule, c->file, c->content, c->length, allowance);
    case CALL_DELETE: return store_delete_by(f, c->rule, c->file, allowance);
    case CALL_COMMIT: return store_commit(f, allowance);
    case CALL_ABORT: return store_abort(f, allowance);
    case CALL_READ: return store_read(f, c->file);
    case CALL_READTX: return store_read_transaction(f, c->file);
    default: return store_read_handle(f, c->at);
    }
}

static void show_progress(void)
{
    static time_t shown;
    time_t now = time(NULL);
    if (now == shown)
        return;
    shown = now;
    fprintf(stderr, "calls=%" PRIu64 " stopped=%" PRIu64 " images=%" PRIu64 "\n", counts.calls, counts.stopped, counts.images);
}

static void count_call(const struct call *c, struct answer a)
{
    counts.number[a.number < NUMBERS ? a.number : 0]++;
    if (c->kind >= CALL_READ) {
        counts.reads++;
        return;
    }
    counts.calls++;
    counts.stopped += a.number == STOPPED;
    counts.mounts += c->kind == CALL_MOUNT && a.number <= STOPPED;
    if (counts.calls % 1024 == 0)
        show_progress();
}

/* Whether this answer of this call has to say where it came from. */
static bool says_from(const struct call *c, struct answer a)
{
    return (a.number == ABSENT && (c->kind == CALL_READTX || c->kind == CALL_DELETE)) || (a.number == DONE && c->kind == CALL_READTX);
}

/* Refused or reading calls change nothing; refused and stopped ones give nothing but numbers, and 9 where it came from. */
static void check_answer(const struct run *r, const struct bench *before, const struct call *c, struct answer a, uint32_t allowance)
{
    bool reads = c->kind >= CALL_READ;
    run_require(r, a.number < NUMBERS, "a number over 11");
    run_require(r, says_from(c, a) == (a.from == COMMITTED_BEFORE || a.from == THIS_TRANSACTION),
                "an answer says where it came from, or does not, and should not, or should");
    if (a.number > STOPPED)
        run_require(r, a.number == ABSENT ? answer_absent(a, a.from) : answer_refuses(a, a.number),
                    "a refusal that gives more than its number");
    if (a.number > STOPPED || reads)
        run_require(r, bench_same(before, &r->bench), "a refused call or a read changed a byte");
    if (a.number == STOPPED)
        run_require(r, !reads && answer_is(a, STOPPED, allowance, 0, 0), "a wrong STOPPED answer");
    if (a.number == DONE && !reads)
        run_require(r, a.steps <= allowance && a.file == 0 && a.start == 0 && a.length == 0, "a wrong DONE answer");
    if (a.number == DONE && reads)
        run_require(
            r, a.steps == 0 && a.length <= MAX_CONTENT && (a.length > 0 || a.start == 0) && a.start + a.length <= r->bench.flash.length,
            "a wrong read");
}

static void add_to_trail(struct run *r, const struct call *c, uint32_t allowance)
{
    if (r->last_changed_nothing)
        r->calls--;
    run_require(r, r->calls < MAX_TRAIL, "the checker's own trail is too short");
    r->trail[r->calls++] = (struct made){ c, allowance };
}

struct answer run_call(struct run *r, const struct call *c, uint32_t allowance)
{
    static struct bench before;
    bench_copy(&before, &r->bench);
    add_to_trail(r, c, allowance);
    struct answer a = call_make(r->bench.flash, c, allowance);
    r->last_changed_nothing = a.number > STOPPED || c->kind >= CALL_READ;
    count_call(c, a);
    check_answer(r, &before, c, a, allowance);
    return a;
}

enum group run_judge(const struct run *r)
{
    static struct bench other;
    static const enum judgement means[GROUPS] = { [GROUP_NOT_SOUND] = JUDGED_BAD_IMAGE, [GROUP_SETTLED] = JUDGED_SETTLED };
    bench_copy(&other, &r->bench);
    enum group g = bench_group(&r->bench);
    enum judgement j = store_judge(other.flash);
    bool unsettled = g != GROUP_NOT_SOUND && g != GROUP_SETTLED;
    run_require(r, j == (unsettled ? JUDGED_UNSETTLED : means[g]), "two judgements of one image");
    run_require(r, bench_same(&other, &r->bench), "judging changed a byte");
    counts.group[g]++;
    counts.images++;
    return g;
}
