/* What a call must answer, by the model and the order of the numbers. */
#include "model.h"

#include <string.h>

/* The sectors that reclaiming a logical unit would keep, as the model knows them. */
struct kept {
    uint32_t count;
    uint32_t positions; /* one more than the last position */
    uint32_t bytes;
    uint32_t steps;
    bool taken[512];
};

/* Programming a word FFFF over FFFF is no step; an odd tail is FF. */
static uint32_t data_steps(const uint8_t *bytes, uint32_t length)
{
    uint32_t steps = 0;
    for (uint32_t i = 0; i < length; i += 2)
        steps += bytes[i] != 0xFF || (i + 1 < length && bytes[i + 1] != 0xFF);
    return steps;
}

static void keep(struct kept *k, uint32_t logical, struct handle at, const uint8_t *bytes, uint32_t length)
{
    if (at.unit != logical)
        return;
    k->count++;
    k->taken[at.position] = true;
    if (at.position + 1 > k->positions)
        k->positions = at.position + 1;
    k->bytes += length + length % 2;
    k->steps += 4 + data_steps(bytes, length);
}

static struct kept kept_in(const struct model *m, uint32_t logical)
{
    struct kept k;
    memset(&k, 0, sizeof k);
    for (uint32_t i = 0; i < m->pool; i++) {
        const struct entry *e = &m->entry[i];
        if (e->is_committed)
            keep(&k, logical, e->committed.at, e->committed.bytes, e->committed.length);
        if (e->overlay != OVERLAY_NONE)
            keep(&k, logical, e->pending.at, e->pending.bytes, e->pending.length);
    }
    if (m->open)
        keep(&k, logical, m->transaction, NULL, 0);
    return k;
}

/* Searches the image's arrays for the unit that fits as it is: the one with the least room between array and sectors, or the lowest. */
static bool place_as_it_is(const struct bench *b, enum rule rule, uint32_t size, struct handle *at)
{
    struct store s;
    uint32_t least = UINT32_MAX;
    static const uint8_t empty[8] = { 255, 255, 255, 255, 255, 255, 255, 255 };
    judge(&b->flash, &s);
    for (uint32_t l = 0; l + 1 < b->flash.units; l++) {
        uint32_t n = s.home[l].array.n;
        uint32_t p = 0;
        const uint8_t *array = b->image + s.home[l].unit * b->flash.unit_size + 16;
        while (p < n && memcmp(array + 8 * p, empty, 8) != 0)
            p++;
        uint32_t needed = 16 + 8 * (p < n ? n : n + 1) + size;
        uint32_t room = s.home[l].array.low - (16 + 8 * n);
        uint32_t key = rule == LOWEST ? l : room;
        if (needed <= s.home[l].array.low && key < least) {
            *at = (struct handle){ l, p };
            least = key;
        }
    }
    return least < UINT32_MAX;
}

static bool place_by_reclaiming(const struct model *m, const struct bench *b, uint32_t size, struct prediction *p)
{
    uint32_t best_gap = 0;
    p->reclaim = 0;
    for (uint32_t l = 0; l + 1 < b->flash.units; l++) {
        struct kept k = kept_in(m, l);
        uint32_t gap = b->flash.unit_size - k.bytes - 16 - 8 * k.positions;
        uint32_t needed = size + (k.count < k.positions ? 0 : 8);
        if (needed > gap || (p->reclaim > 0 && gap <= best_gap))
            continue;
        uint32_t position = 0;
        while (k.taken[position])
            position++;
        best_gap = gap;
        p->at = (struct handle){ l, position };
        p->reclaimed = l;
        p->reclaim = 1 + k.steps + 3;
    }
    return p->reclaim > 0;
}

static void predict_store(const struct model *m, const struct bench *b, const struct call *c, struct prediction *p)
{
    uint32_t length = c->kind == CALL_WRITE ? c->length : 0;
    uint32_t size = length + length % 2;
    const struct entry *e = c->kind == CALL_BEGIN ? NULL : model_entry(m, c->file);
    if (!place_as_it_is(b, c->rule, size, &p->at) && !place_by_reclaiming(m, b, size, p)) {
        p->number = NO_ROOM;
        return;
    }
    p->steps = p->reclaim + 5 + data_steps(c->content, length);
    p->steps += e != NULL && e->overlay != OVERLAY_NONE;
}

static uint32_t commit_steps(const struct model *m)
{
    uint32_t steps = 2;
    for (uint32_t i = 0; i < m->pool; i++)
        if (m->entry[i].overlay != OVERLAY_NONE)
            steps += m->entry[i].is_committed ? 2 : 1;
    return steps;
}

static uint32_t refusal_of_store(const struct model *m, const struct call *c)
{
    if (c->kind == CALL_BEGIN)
        return m->open ? OPEN : DONE;
    if (c->file > MAX_FILE)
        return BAD_FILE;
    if (c->kind == CALL_WRITE && c->length > MAX_CONTENT)
        return TOO_LONG;
    if (!m->open)
        return NO_TRANSACTION;
    return c->kind == CALL_DELETE && model_in_transaction(m, c->file) == NULL ? ABSENT : DONE;
}

static void predict_read(const struct model *m, const struct call *c, struct prediction *p)
{
    const struct content *content = model_committed(m, c->file);
    if (c->kind == CALL_READAT) {
        p->number = model_at(m, c->at) == NULL ? BAD_HANDLE : DONE;
        return;
    }
    if (c->kind == CALL_READTX)
        content = model_in_transaction(m, c->file);
    if (c->file > MAX_FILE)
        p->number = BAD_FILE;
    else if (c->kind == CALL_READTX && !m->open)
        p->number = NO_TRANSACTION;
    else if (content == NULL)
        p->number = ABSENT;
    else
        p->at = content->at;
    if (c->kind == CALL_READTX && (p->number == DONE || p->number == ABSENT))
        p->from = model_from(m, c->file);
}

static uint32_t format_steps(const struct bench *b)
{
    uint32_t steps = 2 * (b->flash.units - 1);
    for (uint32_t u = 0; u < b->flash.units; u++)
        steps += !flash_unit_erased(&b->flash, u);
    return steps;
}

static void predict_settled(const struct model *m, const struct bench *b, const struct call *c, struct prediction *p)
{
    switch (c->kind) {
    case CALL_BEGIN:
    case CALL_WRITE:
    case CALL_DELETE:
        p->number = refusal_of_store(m, c);
        if (p->number == DONE)
            predict_store(m, b, c, p);
        else if (p->number == ABSENT)
            p->from = model_from(m, c->file);
        break;
    case CALL_COMMIT:
    case CALL_ABORT:
        p->number = m->open ? DONE : NO_TRANSACTION;
        if (m->open)
            p->steps = c->kind == CALL_COMMIT ? commit_steps(m) : 1 + model_pending(m);
        break;
    default: predict_read(m, c, p); break;
    }
}

struct prediction model_predict(const struct model *m, const struct bench *b, const struct call *c)
{
    struct prediction p = { .number = DONE };
    if (c->kind == CALL_FORMAT)
        p.steps = format_steps(b);
    else if (c->kind == CALL_MOUNT)
        p.steps = model_mount_steps(m);
    else if (!model_is_settled(m))
        p.number = UNSETTLED;
    else
        predict_settled(m, b, c, &p);
    return p;
}
