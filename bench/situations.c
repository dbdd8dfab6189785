#include "situations.h"

#include <stdio.h>
#include <stdlib.h>

#include "../peer/checks/random.h"

const char *const call_names[CALLS] = { "us_format",       "us_mount",        "us_begin",         "us_write",  "us_delete",
                                        "us_begin_lowest", "us_write_lowest", "us_delete_lowest", "us_commit", "us_abort",
                                        "us_read",         "us_read_open",    "us_read_at" };

static const uint8_t content[LONGEST];
static const struct side *const maker = &second_side;

us_report situation_call(const struct side *side, const struct situation *s, uint8_t *bytes)
{
    size_t length = s->image.length;
    uint32_t size = s->image.size, units = s->image.units;
    switch (s->call) {
    case FORMAT: return side->format(bytes, length, size, units, US_ALL);
    case MOUNT: return side->mount(bytes, length, size, units, US_ALL);
    case BEGIN: return side->begin(bytes, length, size, units, US_ALL);
    case WRITE: return side->write(bytes, length, size, units, s->file, content, s->length, US_ALL);
    case DELETE: return side->remove(bytes, length, size, units, s->file, US_ALL);
    case BEGIN_LOWEST: return side->begin_lowest(bytes, length, size, units, US_ALL);
    case WRITE_LOWEST: return side->write_lowest(bytes, length, size, units, s->file, content, s->length, US_ALL);
    case DELETE_LOWEST: return side->remove_lowest(bytes, length, size, units, s->file, US_ALL);
    case COMMIT: return side->commit(bytes, length, size, units, US_ALL);
    case ABORT: return side->abort(bytes, length, size, units, US_ALL);
    case READ: return side->read(bytes, length, size, units, s->file);
    case READ_OPEN: return side->read_open(bytes, length, size, units, s->file);
    default: return side->read_at(bytes, length, size, units, s->unit, s->position);
    }
}

static struct situation *list;
static uint32_t count;

static struct situation *add(const char *name, enum call call, const struct image *image)
{
    struct situation *s = &list[count++];
    *s = (struct situation){ .name = name, .call = call };
    image_copy(&s->image, image);
    return s;
}

static _Noreturn void fail(const char *what)
{
    fprintf(stderr, "situations: %s\n", what);
    exit(2);
}

static void done(us_report r, const char *what)
{
    if (r.number != US_DONE)
        fail(what);
}

/* So many files, of such lengths, that about a third of the room is live where there are fewer than 256. */
struct use {
    uint32_t files;
    uint32_t longest;
};

static struct use use_of(uint32_t size, uint32_t units)
{
    struct use u = { 0, size == 512 ? 64 : LONGEST };
    u.files = (units - 1) * (size - 16) / (u.longest + 16) * 2 / 3;
    if (u.files > FILES)
        u.files = FILES;
    return u;
}

static us_report write_any(struct image *i, struct use u)
{
    return maker->write(IMAGE(i), random_below(u.files), content, random_below(u.longest + 1), US_ALL);
}

/* Transactions of eight writes until every unit was reclaimed about three times; the last one is left open. */
static void wear_in(struct image *i, struct use u)
{
    uint32_t reclaims = 0;
    done(maker->format(IMAGE(i), US_ALL), "format");
    for (;;) {
        done(maker->begin(IMAGE(i), US_ALL), "begin");
        for (uint32_t w = 0; w < 8; w++) {
            uint32_t spare = image_spare(i);
            if (write_any(i, u).number == US_NO_ROOM)
                break;
            reclaims += image_spare(i) != spare;
        }
        if (reclaims >= 3 * i->units)
            return;
        done(maker->commit(IMAGE(i), US_ALL), "commit");
    }
}

/* On the way from the image, which has a transaction open: the first write that is made without a reclaim, and the first with one.
   The latter is also stopped when half of its move is done. */
static void add_writes(const struct image *from, struct use u)
{
    static struct image now, try, cut;
    bool plain = false, reclaims = false;
    image_copy(&now, from);
    for (uint32_t tries = 0; !(plain && reclaims); tries++) {
        if (tries > 1000)
            fail("no write reclaims, or every one does");
        uint32_t file = random_below(u.files);
        image_copy(&try, &now);
        us_report r = maker->write(IMAGE(&try), file, content, u.longest, US_ALL);
        bool moved = image_spare(&try) != image_spare(&now);
        if (r.number == US_DONE && !(moved ? reclaims : plain)) {
            struct situation *s = add(moved ? "with a reclaim" : "without a reclaim", WRITE, &now);
            s->file = file;
            s->length = u.longest;
            *(moved ? &reclaims : &plain) = true;
            if (moved) {
                /* Without tag, length, offset, two changes of flags and the content, the steps are the move's. */
                uint32_t move = r.steps - 5 - u.longest / 2;
                image_copy(&cut, &now);
                maker->write(IMAGE(&cut), file, content, u.longest, move / 2);
                add("half a move", MOUNT, &cut);
            }
        }
        image_copy(&now, r.number == US_DONE ? &try : from);
    }
}

/* Reads of the last file that is there, and of one that is not, if any. */
static void add_reads(const struct image *open, uint32_t files)
{
    uint32_t file = files, absent = FILES;
    us_report r = { .number = US_ABSENT };
    while (file-- > 0 && r.number != US_DONE)
        r = maker->read_open(open->bytes, open->length, open->size, open->units, file);
    add("a file that is there", READ_OPEN, open)->file = file + 1;
    for (file = files; file-- > 0;) {
        r = maker->read(open->bytes, open->length, open->size, open->units, file);
        if (r.number == US_DONE)
            break;
        absent = file;
    }
    add("a file that is there", READ, open)->file = file;
    if (absent < FILES)
        add("a file that is absent", READ, open)->file = absent;
    struct situation *s = add("a current file", READ_AT, open);
    s->unit = (uint32_t)r.unit;
    s->position = (uint32_t)r.position;
}

static void add_delete(const struct image *open, uint32_t files)
{
    for (uint32_t file = 0; file < files; file++) {
        if (maker->read_open(open->bytes, open->length, open->size, open->units, file).number == US_DONE) {
            add("a file that is there", DELETE, open)->file = file;
            return;
        }
    }
}

/* A formatted store, and one with as many of the longest files as it has room for: one more is refused. */
static void add_ends(const struct image *erased, struct use u)
{
    static struct image now;
    uint32_t file = 0;
    image_copy(&now, erased);
    done(maker->format(IMAGE(&now), US_ALL), "format");
    add("a formatted image", MOUNT, &now);
    done(maker->begin(IMAGE(&now), US_ALL), "begin");
    add("a formatted image", WRITE, &now)->length = u.longest;
    while (file < FILES && maker->write(IMAGE(&now), file, content, u.longest, US_ALL).number == US_DONE)
        file++;
    if (file == FILES)
        return;
    struct situation *s = add("no room", WRITE, &now);
    s->file = file;
    s->length = u.longest;
}

/* Each begin, write and delete once more by the old rule, on the same image. */
static void add_lowest(void)
{
    for (uint32_t i = 0, many = count; i < many; i++) {
        if (list[i].call != BEGIN && list[i].call != WRITE && list[i].call != DELETE)
            continue;
        list[count] = list[i];
        list[count++].call = list[i].call + (BEGIN_LOWEST - BEGIN);
    }
}

uint32_t situations_make(struct situation *s, uint32_t size, uint32_t units)
{
    static struct image erased, open, settled, cut;
    struct use u = use_of(size, units);
    list = s;
    count = 0;
    random_seed(size + units);
    image_erase(&erased, size, units);
    image_copy(&open, &erased);
    wear_in(&open, u);
    image_copy(&settled, &open);
    done(maker->commit(IMAGE(&settled), US_ALL), "commit");
    image_copy(&cut, &open);
    maker->commit(IMAGE(&cut), 1);
    add("an erased image", FORMAT, &erased);
    add("a full image", FORMAT, &settled);
    add("nothing to mend", MOUNT, &settled);
    add("a transaction open", MOUNT, &open);
    add("a commit cut short", MOUNT, &cut);
    add("none open", BEGIN, &settled);
    add("up to eight writes", COMMIT, &open);
    add("up to eight writes", ABORT, &open);
    add_delete(&open, u.files);
    add_reads(&open, u.files);
    add_writes(&open, u);
    add_ends(&erased, u);
    add_lowest();
    return count;
}
