#include "passes.h"

#include <inttypes.h>
#include <stdio.h>
#include <string.h>

enum { LIST_FILE = 0, REGISTER_FILE = 1, FIRST_PASS_FILE = 2, MAX_NIGHT = 999, MAX_ZONE = 999, MAX_PERSON = 65535, MAX_TEXT = 64 };

/* The bytes of a text that are not read yet. */
struct rest {
    const uint8_t *at;
    size_t length;
};

struct staff {
    uint32_t night, zone, people;
    uint32_t person[MAX_PEOPLE];
};

static bool take(struct rest *r, const char *text)
{
    size_t length = strlen(text);
    if (length > r->length || memcmp(r->at, text, length) != 0)
        return false;
    r->at += length;
    r->length -= length;
    return true;
}

static bool digit_next(const struct rest *r)
{
    return r->length > 0 && r->at[0] >= '0' && r->at[0] <= '9';
}

/* Digits, no zero before another digit, a value of at most `most`. */
static bool take_number(struct rest *r, uint32_t most, uint32_t *value)
{
    bool zero = r->length > 0 && r->at[0] == '0';
    uint32_t digits = 0;
    *value = 0;
    while (digit_next(r)) {
        *value = *value * 10 + (uint32_t)(r->at[0] - '0');
        if (*value > most || (zero && digits > 0))
            return false;
        r->at++;
        r->length--;
        digits++;
    }
    return digits > 0;
}

static bool take_line(struct rest *r, const char *key, uint32_t most, uint32_t *value)
{
    return take(r, key) && take_number(r, most, value) && take(r, "\n");
}

static bool read_people(struct rest *r, struct staff *s)
{
    uint32_t before = 0;
    for (uint32_t i = 0; i < s->people; i++) {
        if (!take_line(r, "person=", MAX_PERSON, &s->person[i]) || s->person[i] <= before)
            return false;
        before = s->person[i];
    }
    return r->length == 0;
}

/* The committed list; or a refusal, that it is absent or has no people among them. */
static uint32_t look_at_staff(struct flash f, struct staff *s)
{
    struct answer a = store_read(f, LIST_FILE);
    if (a.number != DONE)
        return a.number == ABSENT ? NO_LIST : a.number;
    struct rest r = { f.image + a.start, a.length };
    if (!take_line(&r, "night=", MAX_NIGHT, &s->night) || !take_line(&r, "zone=", MAX_ZONE, &s->zone) ||
        !take_line(&r, "people=", MAX_PEOPLE, &s->people) || !read_people(&r, s))
        return BAD_LIST;
    return s->people == 0 ? NO_LIST : DONE;
}

static uint32_t look_at_register(struct flash f, uint32_t *count)
{
    struct answer a = store_read(f, REGISTER_FILE);
    *count = 0;
    if (a.number != DONE)
        return a.number == ABSENT ? DONE : a.number;
    struct rest r = { f.image + a.start, a.length };
    return take_line(&r, "count=", MAX_PASSES, count) && r.length == 0 ? DONE : BAD_REGISTER;
}

static bool on_list(const struct staff *s, uint32_t person)
{
    for (uint32_t i = 0; i < s->people; i++)
        if (s->person[i] == person)
            return true;
    return false;
}

/* What refuses a pass before any step: DONE where nothing does, with the count. */
static uint32_t look_before(struct flash f, uint32_t first, uint32_t second, uint32_t *count)
{
    struct staff s;
    uint32_t open = store_read_transaction(f, LIST_FILE).number;
    if (open != NO_TRANSACTION)
        return open == DONE || open == ABSENT ? OPEN : open;
    uint32_t refusal = look_at_staff(f, &s);
    if (refusal != DONE)
        return refusal;
    if (!on_list(&s, first) || !on_list(&s, second))
        return NOT_ON_LIST;
    if (first == second)
        return SAME_PERSON;
    refusal = look_at_register(f, count);
    return refusal == DONE && *count == MAX_PASSES ? REGISTER_FULL : refusal;
}

/* One call of the transaction after its begin: counts its steps and says whether the next one may be made. A refusal aborts. */
static bool go_on(struct flash f, struct pass_answer *p, struct answer a, uint32_t allowance)
{
    p->steps += a.steps;
    p->number = a.number;
    if (a.number <= STOPPED)
        return a.number == DONE;
    struct answer aborted = store_abort(f, allowance - p->steps);
    p->steps += aborted.steps;
    if (aborted.number == STOPPED)
        p->number = STOPPED;
    return false;
}

static struct answer write_text(struct flash f, uint32_t file, const char *text, uint32_t allowance)
{
    return store_write(f, file, (const uint8_t *)text, (uint32_t)strlen(text), allowance);
}

struct pass_answer passes_give(struct flash f, uint32_t first, uint32_t second, uint32_t allowance)
{
    char pass[MAX_TEXT], raised[MAX_TEXT];
    uint32_t n;
    struct pass_answer p = { look_before(f, first, second, &n), 0, 0 };
    if (p.number != DONE)
        return p;
    snprintf(pass, sizeof pass, "pass=%" PRIu32 "\nfirst=%" PRIu32 "\nsecond=%" PRIu32 "\n", n, first, second);
    snprintf(raised, sizeof raised, "count=%" PRIu32 "\n", n + 1);
    struct answer begun = store_begin(f, allowance);
    p = (struct pass_answer){ begun.number, begun.steps, 0 };
    if (begun.number == DONE && go_on(f, &p, write_text(f, FIRST_PASS_FILE + n, pass, allowance - p.steps), allowance) &&
        go_on(f, &p, write_text(f, REGISTER_FILE, raised, allowance - p.steps), allowance) &&
        go_on(f, &p, store_commit(f, allowance - p.steps), allowance))
        p.pass = n;
    return p;
}

struct staff_answer passes_staff(struct flash f)
{
    struct staff s;
    uint32_t number = look_at_staff(f, &s);
    if (number != DONE)
        return (struct staff_answer){ number, 0, 0, 0 };
    return (struct staff_answer){ DONE, s.night, s.zone, s.people };
}

struct register_answer passes_register(struct flash f)
{
    uint32_t count;
    uint32_t number = look_at_register(f, &count);
    return (struct register_answer){ number, number == DONE ? count : 0 };
}
