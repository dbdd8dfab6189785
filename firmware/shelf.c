#include "shelf.h"
#include "depot.h"

#include <stdio.h>
#include <stdlib.h>
#include <string.h>

static void name_file(struct shelves *s, uint32_t file)
{
    for (uint32_t i = 0; i < s->files; i++)
        if (s->file[i] == file)
            return;
    s->file[s->files++] = file;
}

static void change(struct shelf *shelf, const struct call *c)
{
    shelf->file[c->file].is = c->verb == WRITE;
    shelf->file[c->file].length = c->length;
    memcpy(shelf->file[c->file].bytes, c->content, c->length);
}

static void put_text(struct shelves *s, struct shelf *shelf, uint32_t file, const char *text)
{
    shelf->file[file].is = true;
    shelf->file[file].length = strlen(text);
    memcpy(shelf->file[file].bytes, text, strlen(text));
    name_file(s, file);
}

/* The pass of the number that so many passes before it leave, and the register with one more. */
static void give(struct shelves *s, struct shelf *shelf, const struct call *c, uint32_t passes)
{
    char text[LARGEST_CONTENT];
    snprintf(text, sizeof text, "pass=%u\nfirst=%u\nsecond=%u\n", (unsigned)passes, (unsigned)c->first, (unsigned)c->second);
    put_text(s, shelf, PASS + passes, text);
    snprintf(text, sizeof text, "count=%u\n", (unsigned)passes + 1);
    put_text(s, shelf, REGISTER, text);
}

static struct shelf *next_shelf(struct shelves *s, uint32_t *commits)
{
    if (*commits == MOST_COMMITS) {
        fputs("terminal: too many transactions\n", stderr);
        exit(2);
    }
    return &s->after[++*commits];
}

void shelves_fill(struct shelves *s, const struct history *h)
{
    static struct shelf draft;
    uint32_t commits = 0, passes = 0;
    memset(s, 0, sizeof *s);
    draft = s->after[0];
    for (size_t i = 0; i < h->count; i++) {
        const struct call *c = &h->call[i];
        s->commits[i] = commits;
        if (c->verb == WRITE || c->verb == DELETE) {
            change(&draft, c);
            name_file(s, c->file);
        } else if (c->verb == BEGIN) {
            draft = s->after[commits];
        } else if (c->verb == COMMIT) {
            *next_shelf(s, &commits) = draft;
        } else if (c->verb == GIVE && c->due == US_DONE) {
            const struct shelf *before = &s->after[commits];
            struct shelf *after = next_shelf(s, &commits);
            *after = *before;
            give(s, after, c, passes++);
        }
    }
    s->commits[h->count] = commits;
    name_file(s, PASS + passes);
    name_file(s, 200);
    name_file(s, 255);
}

/* The commit step, the pass, the register, which replaces the one before if there is one, and the end. */
uint32_t shelves_commit_steps(const struct shelves *s, uint32_t commits)
{
    return s->after[commits].file[REGISTER].is ? 5 : 4;
}

static bool is_same(const us_report *a, const us_report *b)
{
    return a->number == b->number && a->steps == b->steps && a->unit == b->unit && a->position == b->position && a->file == b->file &&
           a->start == b->start && a->length == b->length && a->from == b->from;
}

const char *shelves_compare(const struct shelves *s, uint32_t commits, const struct flash *f, bool is_usable)
{
    static char words[100];
    const struct shelf *shelf = &s->after[commits];
    for (uint32_t i = 0; i < s->files; i++) {
        uint32_t file = s->file[i];
        us_report r = us_read(f->bytes, f->length, f->size, f->units, file);
        us_report through = us_table_read(f->bytes, f->length, f->size, f->units, f->table, US_ENTRIES, file);
        const char *what = NULL;
        if (r.number != (shelf->file[file].is ? US_DONE : US_ABSENT))
            what = number_in_words(r.number);
        else if (r.number == US_DONE && (r.length != shelf->file[file].length || r.start > f->length || r.length > f->length - r.start))
            what = "another length";
        else if (r.number == US_DONE && memcmp(f->bytes + r.start, shelf->file[file].bytes, r.length) != 0)
            what = "other bytes";
        else if (is_usable ? !is_same(&through, &r) : through.number != US_STALE_TABLE)
            what = "something else through the table";
        if (what == NULL)
            continue;
        snprintf(words, sizeof words, "file %u, %s, reads %s", (unsigned)file,
                 shelf->file[file].is ? "which is committed" : "which is not there", what);
        return words;
    }
    return NULL;
}
