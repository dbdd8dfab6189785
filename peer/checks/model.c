#include "model.h"

#include <string.h>

void model_fresh(struct model *m)
{
    for (uint32_t i = 0; i < m->pool; i++) {
        m->entry[i].is_committed = false;
        m->entry[i].overlay = OVERLAY_NONE;
    }
    m->open = false;
    m->mend = 0;
    m->goes_on = true;
    m->rest = 0;
}

bool model_is_settled(const struct model *m)
{
    return m->mend == 0 && m->goes_on;
}

uint32_t model_pending(const struct model *m)
{
    uint32_t pending = 0;
    for (uint32_t i = 0; i < m->pool; i++)
        pending += m->entry[i].overlay != OVERLAY_NONE;
    return pending;
}

uint32_t model_mount_steps(const struct model *m)
{
    if (!m->goes_on)
        return m->mend + m->rest;
    return m->mend + (m->open ? 1 + model_pending(m) : 0);
}

/* The pool's size where no entry has the file. */
static uint32_t index_of(const struct model *m, uint32_t file)
{
    uint32_t i = 0;
    while (i < m->pool && m->entry[i].file != file)
        i++;
    return i;
}

const struct entry *model_entry(const struct model *m, uint32_t file)
{
    uint32_t i = index_of(m, file);
    return i < m->pool ? &m->entry[i] : NULL;
}

const struct content *model_committed(const struct model *m, uint32_t file)
{
    const struct entry *e = model_entry(m, file);
    return e != NULL && e->is_committed ? &e->committed : NULL;
}

const struct content *model_in_transaction(const struct model *m, uint32_t file)
{
    const struct entry *e = model_entry(m, file);
    if (e == NULL || e->overlay == OVERLAY_NONE)
        return model_committed(m, file);
    return e->overlay == OVERLAY_DATA ? &e->pending : NULL;
}

enum from model_from(const struct model *m, uint32_t file)
{
    const struct entry *e = model_entry(m, file);
    return e == NULL || e->overlay == OVERLAY_NONE ? COMMITTED_BEFORE : THIS_TRANSACTION;
}

const struct entry *model_at(const struct model *m, struct handle at)
{
    for (uint32_t i = 0; i < m->pool; i++) {
        const struct entry *e = &m->entry[i];
        if (e->is_committed && e->committed.at.unit == at.unit && e->committed.at.position == at.position)
            return e;
    }
    return NULL;
}

static void forget_pending(struct model *m)
{
    for (uint32_t i = 0; i < m->pool; i++)
        m->entry[i].overlay = OVERLAY_NONE;
    m->open = false;
}

/* The transaction has ended; a mount still has `rest` steps to make. */
static void leave_rest(struct model *m, uint32_t rest)
{
    m->goes_on = rest == 0;
    m->rest = rest;
}

static void apply_commit(struct model *m, uint32_t rest)
{
    for (uint32_t i = 0; i < m->pool; i++) {
        struct entry *e = &m->entry[i];
        if (e->overlay == OVERLAY_NONE)
            continue;
        e->is_committed = e->overlay == OVERLAY_DATA;
        e->committed = e->pending;
    }
    forget_pending(m);
    leave_rest(m, rest);
}

static void apply_mount(struct model *m, uint32_t made)
{
    if (made <= m->mend) {
        m->mend -= made;
        return;
    }
    uint32_t rest = model_mount_steps(m) - made;
    m->mend = 0;
    forget_pending(m);
    leave_rest(m, rest);
}

static void apply_stored(struct model *m, const struct call *c, struct handle at)
{
    if (c->kind == CALL_BEGIN) {
        m->open = true;
        m->transaction = at;
        return;
    }
    struct entry *e = &m->entry[index_of(m, c->file)];
    e->overlay = c->kind == CALL_WRITE ? OVERLAY_DATA : OVERLAY_MARK;
    e->pending.at = at;
    e->pending.length = c->kind == CALL_WRITE ? c->length : 0;
    memcpy(e->pending.bytes, c->content, e->pending.length);
}

static void apply_store(struct model *m, const struct call *c, const struct prediction *p, uint32_t made)
{
    const struct entry *e = c->kind == CALL_BEGIN ? NULL : model_entry(m, c->file);
    bool rewrites = e != NULL && e->overlay != OVERLAY_NONE;
    if (made == p->steps) {
        apply_stored(m, c, p->at);
    } else if (made > 0 && made < p->reclaim) {
        m->mend = p->reclaim - made;
    } else if (made > p->reclaim && rewrites && made == p->steps - 1) {
        uint32_t pending = model_pending(m);
        forget_pending(m);
        leave_rest(m, 1 + pending + 1);
    } else if (made > p->reclaim) {
        m->mend = 1;
    }
}

void model_apply(struct model *m, const struct call *c, const struct prediction *p, uint32_t made)
{
    if (p->number != DONE)
        return;
    switch (c->kind) {
    case CALL_MOUNT: apply_mount(m, made); break;
    case CALL_BEGIN:
    case CALL_WRITE:
    case CALL_DELETE: apply_store(m, c, p, made); break;
    case CALL_COMMIT:
        if (made > 0)
            apply_commit(m, p->steps - made);
        break;
    case CALL_ABORT:
        if (made > 0) {
            forget_pending(m);
            leave_rest(m, p->steps - made);
        }
        break;
    default: break;
    }
}
