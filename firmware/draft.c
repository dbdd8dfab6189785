#include "draft.h"

#include <stdio.h>
#include <string.h>

#include "depot.h"

enum { LONGEST_SHOWN = 60 };

/* What the screen calls a file; false where it is none of the depot's. */
static bool name_of(uint32_t file, char name[LONGEST_TITLE])
{
    if (file >= PASS && file < PASS + MOST_PASSES)
        return snprintf(name, LONGEST_TITLE, "pass %u", (unsigned)(file - PASS)) > 0;
    if (file >= NAMES && file < NAMES + MOST_PARTS)
        return snprintf(name, LONGEST_TITLE, "names, part %u", (unsigned)(file - NAMES) + 1) > 0;
    switch (file) {
    case LIST: return snprintf(name, LONGEST_TITLE, "list") > 0;
    case REGISTER: return snprintf(name, LONGEST_TITLE, "register") > 0;
    case DOOR: return snprintf(name, LONGEST_TITLE, "door's hours") > 0;
    case NOTICE: return snprintf(name, LONGEST_TITLE, "notice") > 0;
    default: return false;
    }
}

/* NULL where there is nothing to show: the file is not there, and was not before. */
static const char *from_in_words(us_report r)
{
    bool is_own = r.from == US_THIS_TRANSACTION;
    if (r.number == US_DONE)
        return is_own ? "draft" : "committed before";
    return is_own ? "deleted in this draft" : NULL;
}

/* A content in one line, a blank before each of its own lines. */
static void print_content(const struct flash *f, us_report r)
{
    bool begins = true;
    for (size_t i = 0; i < r.length && i < LONGEST_SHOWN; i++) {
        uint8_t byte = f->bytes[r.start + i];
        if (begins)
            putchar(' ');
        begins = byte == '\n';
        if (!begins)
            putchar(byte >= ' ' && byte <= '~' ? byte : '.');
    }
    puts(r.length > LONGEST_SHOWN ? ".." : "");
}

uint32_t draft_show(const struct flash *f)
{
    char name[LONGEST_TITLE];
    uint32_t number = us_read_open(f->bytes, f->length, f->size, f->units, LIST).number;
    if (number != US_DONE && number != US_ABSENT)
        return number;
    puts("  a draft is open, and shows:");
    for (uint32_t file = 0; file < FILES; file++) {
        if (!name_of(file, name))
            continue;
        us_report r = us_read_open(f->bytes, f->length, f->size, f->units, file);
        const char *words = from_in_words(r);
        if (words == NULL)
            continue;
        printf("    %-14s %-*s", name, r.length > 0 ? 17 : 0, words);
        print_content(f, r);
    }
    return US_DONE;
}
