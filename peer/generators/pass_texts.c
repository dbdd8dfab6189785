#include "pass_texts.h"

#include <inttypes.h>
#include <stdio.h>
#include <string.h>

#include "../checks/random.h"

enum { MOST_LINES = MAX_PEOPLE + 4, MOST_TEXT = 512 };

const char *const fault_name[FAULTS] = { "right",      "cut",       "padded",   "empty",  "out-of-order", "leading-zero",
                                         "over-limit", "seventeen", "mismatch", "nobody", "number",       "byte" };

struct draft {
    uint32_t count;
    const char *key[MOST_LINES];
    uint32_t value[MOST_LINES];
    uint32_t zero; /* the line whose number is written with a zero before it, or none */
    uint32_t odd;  /* the line whose number is written in some other wrong way, or none */
};

static void add(struct draft *d, const char *key, uint32_t value)
{
    d->key[d->count] = key;
    d->value[d->count++] = value;
}

static uint32_t random_999(void)
{
    static const uint32_t edges[] = { 0, 1, 9, 10, 99, 100, 999 };
    return random_chance(50) ? edges[random_below(7)] : random_below(1000);
}

/* Ascending: small numbers with small steps, or anywhere up to 65,535. */
static void choose_people(struct people *p, uint32_t count)
{
    bool wide = random_chance(50);
    uint32_t at = 0;
    p->count = count;
    for (uint32_t i = 0; i < count; i++) {
        uint32_t left = 65535 - at - (count - 1 - i);
        at += random_between(1, wide ? left / (random_chance(80) ? count - i : 1) : 4);
        p->person[i] = at;
    }
    if (wide && count > 0 && random_chance(30))
        p->person[count - 1] = 65535;
}

static void put_odd_number(char *to, uint32_t value)
{
    switch (random_below(6)) {
    case 0: to[0] = '\0'; break;
    case 1: sprintf(to, "+%" PRIu32, value); break;
    case 2: sprintf(to, random_chance(50) ? " %" PRIu32 : "%" PRIu32 " ", value); break;
    case 3: sprintf(to, "%" PRIu64, (UINT64_C(1) << 32) + value); break;
    case 4: sprintf(to, "1844674407%" PRIu64, UINT64_C(3709551616) + value); break;
    default: sprintf(to, "%" PRIu32 "\r", value); break;
    }
}

static uint32_t put_text(const struct draft *d, char *text)
{
    uint32_t length = 0;
    for (uint32_t i = 0; i < d->count; i++) {
        char number[32];
        sprintf(number, i == d->zero ? "0%" PRIu32 : "%" PRIu32, d->value[i]);
        if (i == d->odd)
            put_odd_number(number, d->value[i]);
        length += (uint32_t)sprintf(text + length, "%s=%s\n", d->key[i], number);
    }
    return length;
}

static uint32_t pad(char *text, uint32_t length)
{
    static const char *const tails[] = { "\n", " ", "x", "person=65535\n", "count=1\n", "\xFF", "\r\n", "=" };
    const char *tail = tails[random_below(8)];
    uint32_t more = (uint32_t)strlen(tail);
    uint32_t at = random_chance(70) ? length : random_below(length + 1);
    if (random_chance(5)) {
        text[length] = '\0';
        return length + 1;
    }
    memmove(text + at + more, text + at, length - at);
    memcpy(text + at, tail, more);
    return length + more;
}

/* What is done to the text itself; a text that is too long for a file is cut, and is no list then either. */
static void finish(struct call *c, const struct draft *d, enum fault fault)
{
    char text[MOST_TEXT];
    uint32_t length = put_text(d, text);
    if (fault == FAULT_EMPTY)
        length = 0;
    if (fault == FAULT_CUT)
        length = random_chance(40) ? length - 1 : random_below(length);
    if (fault == FAULT_PADDED)
        length = pad(text, length);
    if (fault == FAULT_BYTE)
        text[random_below(length)] ^= (char)(1 << random_below(8));
    c->kind = CALL_WRITE;
    c->length = length < MAX_CONTENT ? length : MAX_CONTENT;
    memcpy(c->content, text, c->length);
}

static void exchange_lines(struct draft *d)
{
    uint32_t i = random_below(d->count), j = random_below(d->count);
    const char *key = d->key[i];
    uint32_t value = d->value[i];
    if (d->count > 4 && random_chance(60)) { /* the value alone, of two people */
        i = 3 + random_below(d->count - 4);
        value = d->value[i];
        d->value[i] = d->value[i + 1];
        d->value[i + 1] = random_chance(50) ? d->value[i] : value;
        return;
    }
    d->key[i] = d->key[j];
    d->value[i] = d->value[j];
    d->key[j] = key;
    d->value[j] = value;
}

static void pass_limit(struct draft *d)
{
    uint32_t over = random_chance(70) ? 0 : random_below(70000);
    switch (d->count > 3 ? random_below(4) : random_below(2)) {
    case 0: d->value[0] = 1000 + over; break;
    case 1: d->value[1] = 1000 + over; break;
    case 2: d->value[3] = 0; break;
    default: d->value[d->count - 1] = 65536 + over; break;
    }
}

enum fault random_list(struct call *c, struct people *people, bool right)
{
    static const uint32_t counts[] = { 1, 2, 2, 3, 3, 4, 5, 8, 15, 16, 16 };
    enum fault fault = right ? FAULT_NONE : (enum fault)random_between(FAULT_CUT, FAULT_BYTE);
    struct draft d = { .zero = MOST_LINES, .odd = MOST_LINES };
    bool seventeen = fault == FAULT_SEVENTEEN && random_chance(70);
    choose_people(people, fault == FAULT_NOBODY ? 0 : seventeen ? 17 : counts[random_below(11)]);
    uint32_t said = people->count;
    if (fault == FAULT_SEVENTEEN && !seventeen)
        said = 17;
    if (fault == FAULT_MISMATCH)
        said = random_chance(30) ? 0 : random_chance(50) ? said - 1 : random_chance(50) ? said + 1 : random_below(17);
    add(&d, "night", random_999());
    add(&d, "zone", random_999());
    add(&d, "people", said);
    for (uint32_t i = 0; i < people->count; i++)
        add(&d, "person", people->person[i]);
    if (fault == FAULT_ORDER)
        exchange_lines(&d);
    if (fault == FAULT_LIMIT)
        pass_limit(&d);
    if (fault == FAULT_LEADING_ZERO)
        d.zero = random_below(d.count);
    if (fault == FAULT_NUMBER)
        d.odd = random_below(d.count);
    finish(c, &d, fault);
    c->file = 0;
    return fault;
}

enum fault random_register(struct call *c, bool right)
{
    static const enum fault faults[] = { FAULT_CUT, FAULT_PADDED, FAULT_EMPTY, FAULT_LEADING_ZERO, FAULT_LIMIT, FAULT_NUMBER, FAULT_BYTE };
    static const uint32_t counts[] = { 0, 1, 9, 10, 99, 100, 124, 125, 126, 126, 126, 126 };
    enum fault fault = right ? FAULT_NONE : faults[random_below(7)];
    struct draft d = { .zero = fault == FAULT_LEADING_ZERO ? 0 : MOST_LINES, .odd = fault == FAULT_NUMBER ? 0 : MOST_LINES };
    uint32_t count = random_chance(70) ? counts[random_below(12)] : random_below(127);
    if (fault == FAULT_LIMIT)
        count = random_chance(60) ? random_between(127, 128) : random_between(127, 70000);
    add(&d, "count", count);
    finish(c, &d, fault);
    c->file = 1;
    return fault;
}
