#include "store.h"

#include "lists.h"

static struct answer only_number(uint32_t number)
{
    return (struct answer){ .number = number };
}

uint32_t store_decode(const struct flash *f, struct store *s)
{
    if (!flash_geometry_ok(f))
        return BAD_GEOMETRY;
    enum group g = judge(f, s);
    if (g == GROUP_NOT_SOUND)
        return BAD_IMAGE;
    return g == GROUP_SETTLED ? DONE : UNSETTLED;
}

/* Runs a list; only a DONE answer gives the handle. */
static struct answer run(const struct job *j, struct flash *f, uint32_t allowance, struct handle at)
{
    struct answer a = only_number(STOPPED);
    if (job_run(j, f, allowance, &a.steps)) {
        a.number = DONE;
        a.at = at;
    }
    return a;
}

static const struct handle no_handle = { 0, 0 };

struct answer store_format(struct flash f, uint32_t allowance)
{
    struct job j;
    if (!flash_geometry_ok(&f))
        return only_number(BAD_GEOMETRY);
    job_start(&j);
    list_format(&j, &f);
    return run(&j, &f, allowance, no_handle);
}

struct answer store_mount(struct flash f, uint32_t allowance)
{
    struct store s;
    struct job j;
    uint32_t refusal = store_decode(&f, &s);
    if (refusal == BAD_GEOMETRY || refusal == BAD_IMAGE)
        return only_number(refusal);
    job_start(&j);
    list_mount(&j, &f, &s);
    return run(&j, &f, allowance, no_handle);
}

static struct answer store_sector(struct flash *f, struct store *s, enum rule rule, struct sector new, uint32_t allowance)
{
    struct job j;
    struct place place = place_find(f, s, rule, even_size(new.length));
    if (!place.is)
        return only_number(NO_ROOM);
    job_start(&j);
    list_store(&j, f, s, new, place);
    return run(&j, f, allowance, place.at);
}

struct answer store_begin_by(struct flash f, enum rule rule, uint32_t allowance)
{
    struct store s;
    uint32_t refusal = store_decode(&f, &s);
    if (refusal != DONE)
        return only_number(refusal);
    if (s.open.count > 0)
        return only_number(OPEN);
    return store_sector(&f, &s, rule, (struct sector){ TAG_TRANSACTION, 0, NULL }, allowance);
}

struct answer store_write_by(struct flash f, enum rule rule, uint32_t file, const uint8_t *content, uint32_t length, uint32_t allowance)
{
    struct store s;
    uint32_t refusal = store_decode(&f, &s);
    if (refusal != DONE)
        return only_number(refusal);
    if (file > MAX_FILE)
        return only_number(BAD_FILE);
    if (length > MAX_CONTENT)
        return only_number(TOO_LONG);
    if (s.open.count == 0)
        return only_number(NO_TRANSACTION);
    struct sector new = { (uint16_t)(TAG_DATA + file), length, content };
    return store_sector(&f, &s, rule, new, allowance);
}

/* The file's descriptor in a view, its count being 0 where the file is absent; and where that came from. */
struct view {
    struct found found;
    enum from from;
};

static struct view transaction_view(const struct flash *f, const struct store *s, uint32_t file)
{
    struct found pending = s->pending[file];
    if (pending.count == 0)
        return (struct view){ s->current[file], COMMITTED_BEFORE };
    if (descriptor_is_delete_mark(store_descriptor(f, s, pending.at)))
        pending.count = 0;
    return (struct view){ pending, THIS_TRANSACTION };
}

static struct answer absent(struct view view)
{
    struct answer a = only_number(ABSENT);
    a.from = view.from;
    return a;
}

struct answer store_delete_by(struct flash f, enum rule rule, uint32_t file, uint32_t allowance)
{
    struct store s;
    uint32_t refusal = store_decode(&f, &s);
    if (refusal != DONE)
        return only_number(refusal);
    if (file > MAX_FILE)
        return only_number(BAD_FILE);
    if (s.open.count == 0)
        return only_number(NO_TRANSACTION);
    struct view view = transaction_view(&f, &s, file);
    if (view.found.count == 0)
        return absent(view);
    struct sector new = { (uint16_t)(TAG_DELETE_MARK + file), 0, NULL };
    return store_sector(&f, &s, rule, new, allowance);
}

typedef void list_end(struct job *j, const struct flash *f, const struct store *s);

/* Commit and abort differ in their list alone. */
static struct answer end_transaction(struct flash f, uint32_t allowance, list_end *list)
{
    struct store s;
    struct job j;
    uint32_t refusal = store_decode(&f, &s);
    if (refusal != DONE)
        return only_number(refusal);
    if (s.open.count == 0)
        return only_number(NO_TRANSACTION);
    job_start(&j);
    list(&j, &f, &s);
    return run(&j, &f, allowance, no_handle);
}

struct answer store_begin(struct flash f, uint32_t allowance)
{
    return store_begin_by(f, TIGHTEST, allowance);
}

struct answer store_write(struct flash f, uint32_t file, const uint8_t *content, uint32_t length, uint32_t allowance)
{
    return store_write_by(f, TIGHTEST, file, content, length, allowance);
}

struct answer store_delete(struct flash f, uint32_t file, uint32_t allowance)
{
    return store_delete_by(f, TIGHTEST, file, allowance);
}

struct answer store_commit(struct flash f, uint32_t allowance)
{
    return end_transaction(f, allowance, list_commit);
}

struct answer store_abort(struct flash f, uint32_t allowance)
{
    return end_transaction(f, allowance, list_abort);
}

static struct answer content_of(const struct flash *f, const struct store *s, struct handle at)
{
    struct descriptor d = store_descriptor(f, s, at);
    struct answer a = only_number(DONE);
    a.length = d.length;
    if (d.length > 0)
        a.start = flash_unit_start(f, s->home[at.unit].unit) + d.offset;
    return a;
}

/* What a read by file gives for the descriptor found, or ABSENT. */
static struct answer read_view(const struct flash *f, const struct store *s, struct view view)
{
    if (view.found.count == 0)
        return absent(view);
    struct answer a = content_of(f, s, view.found.at);
    a.at = view.found.at;
    a.from = view.from;
    return a;
}

struct answer store_read(struct flash f, uint32_t file)
{
    struct store s;
    uint32_t refusal = store_decode(&f, &s);
    if (refusal != DONE)
        return only_number(refusal);
    if (file > MAX_FILE)
        return only_number(BAD_FILE);
    return read_view(&f, &s, (struct view){ s.current[file], NOT_SAID });
}

struct answer store_read_transaction(struct flash f, uint32_t file)
{
    struct store s;
    uint32_t refusal = store_decode(&f, &s);
    if (refusal != DONE)
        return only_number(refusal);
    if (file > MAX_FILE)
        return only_number(BAD_FILE);
    if (s.open.count == 0)
        return only_number(NO_TRANSACTION);
    return read_view(&f, &s, transaction_view(&f, &s, file));
}

static bool is_current_data(const struct flash *f, const struct store *s, struct handle at)
{
    if (at.unit > f->units - 2 || at.position >= s->home[at.unit].array.n)
        return false;
    struct descriptor d = store_descriptor(f, s, at);
    return descriptor_kind(d) == KIND_CURRENT && descriptor_is_data(d);
}

struct answer store_read_handle(struct flash f, struct handle at)
{
    struct store s;
    uint32_t refusal = store_decode(&f, &s);
    if (refusal != DONE)
        return only_number(refusal);
    if (!is_current_data(&f, &s, at))
        return only_number(BAD_HANDLE);
    struct answer a = content_of(&f, &s, at);
    a.file = descriptor_file(store_descriptor(&f, &s, at));
    return a;
}

enum judgement store_judge(struct flash f)
{
    struct store s;
    switch (store_decode(&f, &s)) {
    case DONE: return JUDGED_SETTLED;
    case UNSETTLED: return JUDGED_UNSETTLED;
    case BAD_IMAGE: return JUDGED_BAD_IMAGE;
    default: return JUDGED_BAD_GEOMETRY;
    }
}
