/* peer-replay: plays a script from standard input, one line of output for each line. */
#include <inttypes.h>
#include <stdio.h>
#include <stdlib.h>
#include <string.h>

#include "../store/listing.h"
#include "../store/passes.h"
#include "parse.h"
#include "session.h"
#include "table_lines.h"

static void print_answer(struct answer a)
{
    print_result(a);
    putchar('\n');
}

static bool play_new(const struct command *c)
{
    uint64_t whole = (uint64_t)c->number[0] * c->number[1];
    now.unit_size = c->number[0];
    now.units = c->number[1];
    now.length = whole <= MAX_IMAGE ? (uint32_t)whole : 0;
    memset(now.image, 0xFF, now.length);
    puts("ok");
    return true;
}

static bool play_size(const struct command *c)
{
    uint32_t length = c->number[0];
    if (length > MAX_SIZE)
        return false;
    if (length > now.length)
        memset(now.image + now.length, 0xFF, length - now.length);
    now.length = length;
    puts("ok");
    return true;
}

static bool play_put(const struct command *c)
{
    if (c->number[0] >= now.length || c->number[1] > 0xFF)
        return false;
    now.image[c->number[0]] = (uint8_t)c->number[1];
    puts("ok");
    return true;
}

static struct session kept;

static bool play_keep(const struct command *c)
{
    (void)c;
    kept = now;
    puts("ok");
    return true;
}

static bool play_back(const struct command *c)
{
    (void)c;
    now = kept;
    puts("ok");
    return true;
}

static bool play_format(const struct command *c)
{
    print_answer(store_format(flash_now(), c->number[0]));
    return true;
}

static bool play_mount(const struct command *c)
{
    print_answer(store_mount(flash_now(), c->number[0]));
    return true;
}

static bool play_begin(const struct command *c)
{
    print_answer(store_begin(flash_now(), c->number[0]));
    return true;
}

static bool play_commit(const struct command *c)
{
    print_answer(store_commit(flash_now(), c->number[0]));
    return true;
}

static bool play_abort(const struct command *c)
{
    print_answer(store_abort(flash_now(), c->number[0]));
    return true;
}

static bool play_write(const struct command *c)
{
    print_answer(store_write(flash_now(), c->number[0], c->content, c->length, c->number[1]));
    return true;
}

static bool play_delete(const struct command *c)
{
    print_answer(store_delete(flash_now(), c->number[0], c->number[1]));
    return true;
}

static bool play_begin_lowest(const struct command *c)
{
    print_answer(store_begin_by(flash_now(), LOWEST, c->number[0]));
    return true;
}

static bool play_write_lowest(const struct command *c)
{
    print_answer(store_write_by(flash_now(), LOWEST, c->number[0], c->content, c->length, c->number[1]));
    return true;
}

static bool play_delete_lowest(const struct command *c)
{
    print_answer(store_delete_by(flash_now(), LOWEST, c->number[0], c->number[1]));
    return true;
}

static bool play_read(const struct command *c)
{
    print_answer(store_read(flash_now(), c->number[0]));
    return true;
}

static bool play_readtx(const struct command *c)
{
    print_answer(store_read_transaction(flash_now(), c->number[0]));
    return true;
}

static bool play_readat(const struct command *c)
{
    struct handle at = { c->number[0], c->number[1] };
    print_answer(store_read_handle(flash_now(), at));
    return true;
}

static bool play_judge(const struct command *c)
{
    static const char *const name[] = { [JUDGED_BAD_GEOMETRY] = "bad-geometry",
                                        [JUDGED_BAD_IMAGE] = "bad-image",
                                        [JUDGED_UNSETTLED] = "unsettled",
                                        [JUDGED_SETTLED] = "settled" };
    (void)c;
    puts(name[store_judge(flash_now())]);
    return true;
}

static bool play_list(const struct command *c)
{
    static char text[MAX_LISTING];
    (void)c;
    listing_text(flash_now(), " | ", text);
    puts(text);
    return true;
}

static bool play_give(const struct command *c)
{
    struct pass_answer a = passes_give(flash_now(), c->number[0], c->number[1], c->number[2]);
    printf("number=%" PRIu32 " steps=%" PRIu32 " pass=%" PRIu32 " image=%" PRIu32 "\n", a.number, a.steps, a.pass, image_hash());
    return true;
}

static bool play_staff(const struct command *c)
{
    struct staff_answer a = passes_staff(flash_now());
    (void)c;
    printf("number=%" PRIu32 " night=%" PRIu32 " zone=%" PRIu32 " people=%" PRIu32 "\n", a.number, a.night, a.zone, a.people);
    return true;
}

static bool play_register(const struct command *c)
{
    struct register_answer a = passes_register(flash_now());
    (void)c;
    printf("number=%" PRIu32 " count=%" PRIu32 "\n", a.number, a.count);
    return true;
}

/* Those of the table are in table_lines. */
static bool (*const plays[VERB_TFORMAT])(const struct command *) = { [VERB_NEW] = play_new,
                                                                     [VERB_SIZE] = play_size,
                                                                     [VERB_PUT] = play_put,
                                                                     [VERB_KEEP] = play_keep,
                                                                     [VERB_BACK] = play_back,
                                                                     [VERB_FORMAT] = play_format,
                                                                     [VERB_MOUNT] = play_mount,
                                                                     [VERB_BEGIN] = play_begin,
                                                                     [VERB_COMMIT] = play_commit,
                                                                     [VERB_ABORT] = play_abort,
                                                                     [VERB_WRITE] = play_write,
                                                                     [VERB_DELETE] = play_delete,
                                                                     [VERB_READ] = play_read,
                                                                     [VERB_READTX] = play_readtx,
                                                                     [VERB_READAT] = play_readat,
                                                                     [VERB_JUDGE] = play_judge,
                                                                     [VERB_LIST] = play_list,
                                                                     [VERB_GIVE] = play_give,
                                                                     [VERB_STAFF] = play_staff,
                                                                     [VERB_REGISTER] = play_register,
                                                                     [VERB_BEGIN_LOWEST] = play_begin_lowest,
                                                                     [VERB_WRITE_LOWEST] = play_write_lowest,
                                                                     [VERB_DELETE_LOWEST] = play_delete_lowest };

int main(void)
{
    struct line line = { NULL, 0, 0 };
    static struct command c;
    while (line_read(&line, stdin))
        if (!command_parse(&line, &c) || !(c.verb < VERB_TFORMAT ? plays[c.verb] : play_table)(&c))
            puts("error");
    free(line.bytes);
    return fflush(stdout) == 0 && !ferror(stdin) ? EXIT_SUCCESS : EXIT_FAILURE;
}
