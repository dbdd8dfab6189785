/* replay: plays a script from standard input through the C interface, one line of output for each line. */
#include <inttypes.h>
#include <stdbool.h>
#include <stdio.h>
#include <stdlib.h>
#include <string.h>

#include "../include/undernshade_passes.h"
#include "session.h"
#include "table.h"

enum { FILES = 256 };

static bool play_new(const struct command *c)
{
    uint64_t whole = (uint64_t)c->number[0] * c->number[1];
    now.size = c->number[0];
    now.units = c->number[1];
    now.length = whole <= LARGEST_IMAGE ? (size_t)whole : 0;
    memset(image(), 0xFF, now.length);
    puts("ok");
    return true;
}

static bool play_size(const struct command *c)
{
    size_t length = c->number[0];
    if (length > LARGEST_SIZE)
        return false;
    if (length > now.length)
        memset(image() + now.length, 0xFF, length - now.length);
    now.length = length;
    puts("ok");
    return true;
}

static bool play_put(const struct command *c)
{
    if (c->number[0] >= now.length || c->number[1] > 0xFF)
        return false;
    image()[c->number[0]] = (uint8_t)c->number[1];
    puts("ok");
    return true;
}

static struct session kept;

static bool copy_session(struct session *to, const struct session *from)
{
    to->size = from->size;
    to->units = from->units;
    to->length = from->length;
    memcpy(to->bytes + GUARD, from->bytes + GUARD, from->length);
    puts("ok");
    return true;
}

static uint32_t verdict(void)
{
    uint32_t number = us_read(IMAGE, 0).number;
    return number == US_BAD_GEOMETRY || number == US_BAD_IMAGE || number == US_UNSETTLED ? number : US_DONE;
}

static void play_judge(void)
{
    static const char *const names[] = {
        [US_DONE] = "settled", [US_BAD_GEOMETRY] = "bad-geometry", [US_BAD_IMAGE] = "bad-image", [US_UNSETTLED] = "unsettled"
    };
    puts(names[verdict()]);
}

static void play_list(void)
{
    static us_report reads[FILES];
    uint32_t files = 0;
    uint32_t refusal = verdict();
    if (refusal != US_DONE) {
        printf("refused=%" PRIu32 "\n", refusal);
        return;
    }
    for (uint32_t file = 0; file < FILES; file++) {
        reads[file] = us_read(IMAGE, file);
        files += reads[file].number == US_DONE;
    }
    /* Asked whether a transaction is open alone: no content is shown, so there is no `from` to pass on. */
    bool open = us_read_open(IMAGE, 0).number != US_NO_TRANSACTION;
    printf("unit=%" PRIu32 " | units=%" PRIu32 " | open=%d | files=%" PRIu32, now.size, now.units, open, files);
    for (uint32_t file = 0; file < FILES; file++) {
        us_report r = reads[file];
        if (r.number == US_DONE)
            printf(" | file=%" PRIu32 " length=%zu at=%zu:%zu", file, r.length, r.unit, r.position);
        else if (r.number != US_ABSENT)
            printf(" | file=%" PRIu32 " number=%" PRIu32, file, r.number);
    }
    putchar('\n');
}

static us_report call(const struct command *c)
{
    uint32_t first = c->number[0];
    uint32_t second = c->number[1];
    switch (c->verb) {
    case VERB_FORMAT: return us_format(IMAGE, first);
    case VERB_MOUNT: return us_mount(IMAGE, first);
    case VERB_BEGIN: return us_begin(IMAGE, first);
    case VERB_COMMIT: return us_commit(IMAGE, first);
    case VERB_ABORT: return us_abort(IMAGE, first);
    case VERB_WRITE: return us_write(IMAGE, first, c->content, c->length, second);
    case VERB_DELETE: return us_delete(IMAGE, first, second);
    case VERB_BEGIN_LOWEST: return us_begin_lowest(IMAGE, first);
    case VERB_WRITE_LOWEST: return us_write_lowest(IMAGE, first, c->content, c->length, second);
    case VERB_DELETE_LOWEST: return us_delete_lowest(IMAGE, first, second);
    case VERB_READ: return us_read(IMAGE, first);
    case VERB_READTX: return us_read_open(IMAGE, first);
    default: return us_read_at(IMAGE, first, second);
    }
}

/* Built without the pass calls, where the archive has none, it answers their lines by `error`. */
#ifndef WITHOUT_PASSES
static bool play_give(const struct command *c)
{
    set_guards();
    us_pass r = us_give(IMAGE, c->number[0], c->number[1], c->number[2]);
    printf("number=%" PRIu32 " steps=%" PRIu32 " pass=%zu image=%" PRIu32 "%s\n", r.number, r.steps, r.pass, hash(), guards_said());
    return true;
}

/* The looks answer no hash: that they change no byte is asked here. */
static bool play_look(bool staff)
{
    set_guards();
    uint32_t before = hash();
    if (staff) {
        us_staff_list r = us_staff(IMAGE);
        printf("number=%" PRIu32 " night=%zu zone=%zu people=%zu", r.number, r.night, r.zone, r.people);
    } else {
        us_pass_count r = us_register(IMAGE);
        printf("number=%" PRIu32 " count=%zu", r.number, r.count);
    }
    printf("%s%s\n", hash() == before ? "" : " image-changed", guards_said());
    return true;
}
#else
static bool play_give(const struct command *c)
{
    (void)c;
    return false;
}
static bool play_look(bool staff)
{
    (void)staff;
    return false;
}
#endif

/* False where a number is out of its range. */
static bool play(const struct command *c)
{
    switch (c->verb) {
    case VERB_NEW: return play_new(c);
    case VERB_SIZE: return play_size(c);
    case VERB_PUT: return play_put(c);
    case VERB_KEEP: return copy_session(&kept, &now);
    case VERB_BACK: return copy_session(&now, &kept);
    case VERB_JUDGE: play_judge(); return true;
    case VERB_LIST: play_list(); return true;
    case VERB_GIVE: return play_give(c);
    case VERB_STAFF: return play_look(true);
    case VERB_REGISTER: return play_look(false);
    default: break;
    }
    if (c->verb >= VERB_TFORMAT)
        return play_table(c);
    set_guards();
    print_report(call(c));
    putchar('\n');
    return true;
}

int main(void)
{
    struct line line = { NULL, 0, 0 };
    static struct command c;
    /* So that a call that ends the program is the first line that is missing. */
    setvbuf(stdout, NULL, _IOLBF, BUFSIZ);
    while (line_read(&line, stdin))
        if (!command_parse(&line, &c) || !play(&c))
            puts("error");
    free(line.bytes);
    return fflush(stdout) == 0 && !ferror(stdin) ? EXIT_SUCCESS : EXIT_FAILURE;
}
