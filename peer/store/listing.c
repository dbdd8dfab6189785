#include "listing.h"

#include <inttypes.h>
#include <stdarg.h>
#include <stdio.h>

struct text {
    char *at;
    size_t length;
};

static void add(struct text *t, const char *format, ...)
{
    va_list values;
    va_start(values, format);
    int made = vsnprintf(t->at + t->length, MAX_LISTING - t->length, format, values);
    va_end(values);
    t->length += (size_t)made;
}

static uint32_t count_files(const struct store *s)
{
    uint32_t files = 0;
    for (uint32_t file = 0; file <= MAX_FILE; file++)
        files += s->current[file].count;
    return files;
}

static void add_file(struct text *t, const char *between, uint32_t file, uint32_t length, struct handle at)
{
    add(t, "%sfile=%" PRIu32 " length=%" PRIu32 " at=%" PRIu32 ":%" PRIu32, between, file, length, at.unit, at.position);
}

void listing_text(struct flash f, const char *between, char text[MAX_LISTING])
{
    struct text t = { text, 0 };
    struct store s;
    uint32_t refusal = store_decode(&f, &s);
    if (refusal != DONE) {
        add(&t, "refused=%" PRIu32, refusal);
        return;
    }
    add(&t, "unit=%" PRIu32 "%sunits=%" PRIu32 "%s", f.unit_size, between, f.units, between);
    add(&t, "open=%" PRIu32 "%sfiles=%" PRIu32, s.open.count, between, count_files(&s));
    for (uint32_t file = 0; file <= MAX_FILE; file++) {
        struct found current = s.current[file];
        if (current.count > 0)
            add_file(&t, between, file, store_descriptor(&f, &s, current.at).length, current.at);
    }
}
