#include "lists.h"

#include "move.h"

void list_format(struct job *j, const struct flash *f)
{
    for (uint32_t u = 0; u < f->units; u++)
        if (!flash_unit_erased(f, u))
            job_erase(j, u);
    for (uint32_t u = 0; u + 1 < f->units; u++) {
        job_program(j, flash_unit_start(f, u), (uint16_t)u);
        job_program(j, flash_unit_start(f, u) + 2, STATE_LIVE);
    }
}

static void change_flags(struct job *j, const struct flash *f, const struct store *s, struct handle at, uint16_t flags)
{
    job_program(j, store_flags_address(f, s, at), flags);
}

/* The high byte of an odd content's last word is FF. */
static uint16_t content_word(struct sector new, uint32_t i)
{
    uint32_t high = i + 1 < new.length ? new.content[i + 1] : 0xFF;
    return (uint16_t)(new.content[i] | high << 8);
}

static void write_sector(struct job *j, const struct flash *f, struct sector new, uint32_t unit, uint32_t position, uint32_t offset)
{
    uint32_t at = unit_descriptor_address(f, unit, position);
    uint32_t data = flash_unit_start(f, unit) + offset;
    job_program(j, at + AT_TAG, new.tag);
    job_program(j, at + AT_LENGTH, (uint16_t) new.length);
    job_program(j, at + AT_OFFSET, (uint16_t)offset);
    job_program(j, at + AT_FLAGS, FLAGS_ALLOCATED);
    for (uint32_t i = 0; i < new.length; i += 2)
        job_program(j, data + i, content_word(new, i));
    job_program(j, at + AT_FLAGS, FLAGS_PENDING);
}

void list_store(struct job *j, const struct flash *f, struct store *s, struct sector new, struct place place)
{
    struct home *h = &s->home[place.at.unit];
    if (place.reclaims) {
        move_list(j, f, h->unit, s->spare, (uint16_t)place.at.unit);
        h->unit_after = s->spare;
    }
    write_sector(j, f, new, h->unit_after, place.at.position, place.offset);
    if (new.tag == TAG_TRANSACTION)
        return;
    const struct found *earlier = &s->pending[new.tag & 0xFF];
    if (earlier->count > 0)
        change_flags(j, f, s, earlier->at, FLAGS_OLD);
}

typedef void visit(struct job *j, const struct flash *f, const struct store *s, struct handle at);

/* Visits the pending descriptors other than the transaction, by logical unit and position. */
static void each_pending(struct job *j, const struct flash *f, const struct store *s, visit *v)
{
    for (uint32_t l = 0; l + 1 < f->units; l++) {
        for (uint32_t p = 0; p < s->home[l].array.n; p++) {
            struct handle at = { l, p };
            struct descriptor d = store_descriptor(f, s, at);
            if (descriptor_kind(d) == KIND_PENDING && !descriptor_is_transaction(d))
                v(j, f, s, at);
        }
    }
}

static void commit_one(struct job *j, const struct flash *f, const struct store *s, struct handle at)
{
    struct descriptor d = store_descriptor(f, s, at);
    const struct found *current = &s->current[descriptor_file(d)];
    if (current->count > 0)
        change_flags(j, f, s, current->at, FLAGS_OLD);
    change_flags(j, f, s, at, descriptor_is_delete_mark(d) ? FLAGS_OLD : FLAGS_CURRENT);
}

static void finish_commit(struct job *j, const struct flash *f, const struct store *s, struct handle transaction)
{
    each_pending(j, f, s, commit_one);
    change_flags(j, f, s, transaction, FLAGS_OLD);
}

void list_commit(struct job *j, const struct flash *f, const struct store *s)
{
    change_flags(j, f, s, s->open.at, FLAGS_CURRENT);
    finish_commit(j, f, s, s->open.at);
}

static void abort_one(struct job *j, const struct flash *f, const struct store *s, struct handle at)
{
    change_flags(j, f, s, at, FLAGS_OLD);
}

void list_abort(struct job *j, const struct flash *f, const struct store *s)
{
    if (s->open.count > 0)
        change_flags(j, f, s, s->open.at, FLAGS_OLD);
    each_pending(j, f, s, abort_one);
}

void list_mount(struct job *j, const struct flash *f, const struct store *s)
{
    if (s->move.is)
        move_list(j, f, s->move.old_home, s->move.copy, (uint16_t)s->move.logical);
    if (s->torn.count > 0)
        change_flags(j, f, s, s->torn.at, FLAGS_VOID);
    if (s->allocated.count > 0)
        change_flags(j, f, s, s->allocated.at, FLAGS_OLD);
    if (s->committed.count > 0)
        finish_commit(j, f, s, s->committed.at);
    else
        list_abort(j, f, s);
}
