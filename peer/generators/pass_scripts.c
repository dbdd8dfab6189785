/* peer-passes COUNT SEED: a random script with lists, registers and passes, of about COUNT gives and other calls, on standard output,
   and what is in it on standard error. */
#include "../checks/calls.h"
#include "../checks/harm.h"
#include "../checks/random.h"
#include "asked.h"
#include "pass_emit.h"

enum { FIRST_OTHER = 128, FEW_STEPS = 60, CHOSEN_STOPS = 16 };

static struct people people; /* of the last list that was written */

static uint64_t made(void)
{
    return emitted_calls() + emitted_pass_lines();
}

static uint32_t plain(enum call_kind kind, uint32_t file, uint32_t allowance)
{
    struct call c = { .kind = kind, .file = file };
    return emit_call(&c, allowance).number;
}

/* Somebody on the list for the most part; else a neighbour, nobody, or one who is listed in the low 16 bits. */
static uint32_t choose_person(void)
{
    uint32_t some = people.count > 0 ? people.person[random_below(people.count)] : random_below(10);
    if (random_chance(93))
        return some;
    switch (random_below(5)) {
    case 0: return some + 1;
    case 1: return 0;
    case 2: return some + 65536 * random_between(1, 3);
    case 3: return random_chance(50) ? 65536 : UINT32_MAX;
    default: return random_below(65536);
    }
}

static void choose_two(uint32_t *first, uint32_t *second)
{
    *first = choose_person();
    *second = choose_person();
    for (uint32_t i = 0; i < 8 && *first == *second && !random_chance(12); i++)
        *second = choose_person();
}

static void mend(void)
{
    while (random_chance(15))
        plain(CALL_MOUNT, 0, random_below(60));
    plain(CALL_MOUNT, 0, PLENTY);
}

static void look(uint32_t pass)
{
    if (random_chance(60))
        emit_register();
    if (random_chance(25))
        emit_staff();
    if (random_chance(25))
        plain(CALL_READ, 2 + pass, 0);
}

/* One stop of a give from the kept image; what follows may be a mount, or nothing of the kind. */
static void one_stop(uint32_t first, uint32_t second, uint32_t allowance)
{
    emit_back();
    emit_give(first, second, allowance);
    if (random_chance(10))
        emit_judge();
    if (random_chance(10))
        emit_give(first, second, PLENTY);
    if (random_chance(10))
        plain(random_chance(50) ? CALL_COMMIT : CALL_ABORT, 0, PLENTY);
    if (random_chance(35))
        mend();
    if (random_chance(30))
        look(0);
    if (random_chance(5))
        emit_give(first, second, PLENTY);
}

static void every_stop(uint32_t first, uint32_t second, uint32_t steps)
{
    emit_keep();
    if (steps <= FEW_STEPS)
        for (uint32_t k = 0; k <= steps; k++)
            one_stop(first, second, k);
    else
        for (uint32_t i = 0; i < CHOSEN_STOPS; i++)
            one_stop(first, second, i < 6 ? steps - i : random_below(steps + 1));
    emit_back();
}

/* A pass, whole or stopped and mounted; now and then at every stop before that. */
static void give(void)
{
    uint32_t first, second;
    choose_two(&first, &second);
    struct pass_answer p = plan_give(first, second);
    if (p.steps > 0 && random_chance(p.number == DONE ? 3 : 6))
        every_stop(first, second, p.steps);
    bool whole = p.steps == 0 || random_chance(75);
    emit_give(first, second, whole ? (random_chance(50) ? PLENTY : p.steps) : random_below(p.steps));
    if (!whole && random_chance(80))
        mend();
    if (random_chance(25))
        look(p.pass);
}

static void give_some(uint32_t most)
{
    for (uint32_t i = random_between(1, most); i > 0; i--)
        give();
}

/* Writes a file in a transaction of its own, which now and then stays open. */
static void put_file(const struct call *c)
{
    plain(CALL_BEGIN, 0, PLENTY);
    emit_call(c, random_chance(95) ? PLENTY : random_below(40));
    if (random_chance(5))
        give_some(2);
    if (random_chance(96))
        plain(CALL_COMMIT, 0, PLENTY);
}

static void new_list(bool right)
{
    static struct call c;
    count_list(random_list(&c, &people, right));
    put_file(&c);
    if (random_chance(50))
        emit_staff();
    give_some(right ? 2 : 3);
}

static void new_register(bool right)
{
    static struct call c;
    count_register(random_register(&c, right));
    put_file(&c);
    if (random_chance(50))
        emit_register();
    give_some(3);
}

/* Whether a give is refused midway once this content is committed. */
static bool leads_midway(const struct call *c, uint32_t first, uint32_t second)
{
    static struct bench trial;
    bench_copy(&trial, &scene);
    if (store_begin(trial.flash, PLENTY).number != DONE || call_make(trial.flash, c, PLENTY).number != DONE)
        return false;
    store_commit(trial.flash, PLENTY);
    struct pass_answer a = passes_give(trial.flash, first, second, PLENTY);
    return a.number == NO_ROOM && a.steps > 0;
}

/* Other files until a pass, or the register behind it, does not fit. */
static void fill(void)
{
    static struct call c;
    uint32_t first, second;
    choose_two(&first, &second);
    if (plan_give(first, second).number >= NO_LIST && plan_give(first, second).number <= BAD_LIST)
        new_list(true);
    for (uint32_t i = 0; i < 9 && (people.count < 2 || plan_give(first, second).number == NOT_ON_LIST || first == second); i++)
        choose_two(&first, &second);
    for (uint32_t i = 0; i < 12 && plan_give(first, second).number == DONE; i++) {
        bool found = false;
        for (uint32_t tries = 0; tries < 24 && !found; tries++) {
            c = (struct call){ .kind = CALL_WRITE, .file = FIRST_OTHER + random_below(128) };
            random_content_of(&c, random_below(MAX_CONTENT + 1));
            found = leads_midway(&c, first, second);
        }
        if (!found)
            random_content_of(&c, random_chance(50) ? MAX_CONTENT : random_between(100, MAX_CONTENT));
        plain(CALL_BEGIN, 0, PLENTY);
        if (emit_call(&c, PLENTY).number == DONE)
            plain(CALL_COMMIT, 0, PLENTY);
        else
            plain(CALL_ABORT, 0, PLENTY);
    }
    for (uint32_t i = 0; i < 3; i++)
        give();
    for (uint32_t i = 0; i < 4 && plan_give(first, second).steps > 0; i++) {
        emit_give(first, second, PLENTY);
        choose_two(&first, &second);
    }
}

static void damage(void)
{
    static struct bench b;
    emit_keep();
    bench_copy(&b, &scene);
    harm(&b);
    emit_image(&b, true);
    emit_judge();
    give_some(2);
    look(0);
    emit_back();
}

/* A transaction of somebody else's that is open, and what a stop has left without a mount. */
static void disorder(void)
{
    plain(CALL_BEGIN, 0, random_chance(70) ? PLENTY : random_below(6));
    if (random_chance(50))
        plain(CALL_DELETE, random_below(4), PLENTY);
    give_some(2);
    look(0);
    if (random_chance(60))
        mend();
    else
        plain(random_chance(50) ? CALL_COMMIT : CALL_ABORT, 0, PLENTY);
}

static void remove_file(uint32_t file)
{
    plain(CALL_BEGIN, 0, PLENTY);
    plain(CALL_DELETE, file, PLENTY);
    plain(CALL_COMMIT, 0, PLENTY);
    look(0);
    give_some(3);
}

static void wrong_lines(void)
{
    static const char *const lines[] = { "give",       "give 1 2", "give 1 2 3 4", "give 1 -2 3", "give 1 2 4294967296", "give  1 2 3",
                                         "Give 1 2 3", "staff 0",  "staff ",       "register 1",  "registers",           " register" };
    emit_wrong(lines[random_below(12)]);
}

static void advance(bool tidy)
{
    uint32_t turn = random_below(100);
    struct store s;
    if (store_decode(&scene.flash, &s) != DONE && random_chance(70))
        mend();
    if (turn < 40)
        give_some(3);
    else if (turn < 52)
        new_list(tidy || random_chance(20));
    else if (turn < 63)
        new_register(random_chance(tidy ? 85 : 40));
    else if (turn < 68)
        remove_file(random_chance(50) ? 0 : random_chance(80) ? 1 : random_between(2, 127));
    else if (turn < 90)
        fill();
    else if (turn < 94)
        disorder();
    else if (turn < 95)
        damage();
    else if (turn < 96)
        wrong_lines();
    else
        look(random_below(4));
}

static void history(uint64_t wanted)
{
    static const uint32_t sizes[] = { 512, 512, 512, 512, 1024, 1024, 2048, 4096 };
    uint32_t size = sizes[random_below(8)];
    uint32_t units = random_chance(70) ? 3 : random_between(3, size > 1024 ? 5 : 8);
    bool tidy = random_chance(40);
    uint32_t length = random_between(3, 25);
    emit_new(size, units);
    if (random_chance(3))
        emit_size(random_below(2000));
    plain(CALL_FORMAT, 0, PLENTY);
    if (random_chance(10))
        give_some(2);
    new_list(tidy || random_chance(50));
    for (uint32_t i = 0; i < length && made() < wanted; i++)
        advance(tidy);
    if (random_chance(10))
        emit_list();
}

static void print_counts(FILE *out)
{
    emit_print_counts(out);
    pass_print_counts(out);
}

int main(int argc, char **argv)
{
    static const struct generator passes = { "peer-passes COUNT SEED", history, made, print_counts };
    return asked_script(argc, argv, &passes);
}
