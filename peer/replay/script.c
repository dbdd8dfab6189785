#include "script.h"

#include <stdlib.h>
#include <string.h>

static void append(struct line *line, char byte)
{
    if (line->length == line->room) {
        line->room = line->room * 2 + 256;
        line->bytes = realloc(line->bytes, line->room);
        if (line->bytes == NULL) {
            fputs("no memory for a line\n", stderr);
            exit(2);
        }
    }
    line->bytes[line->length++] = byte;
}

bool line_read(struct line *line, FILE *in)
{
    line->length = 0;
    for (int c = getc(in); c != EOF; c = getc(in)) {
        if (c == '\n')
            return true;
        append(line, (char)c);
    }
    return line->length > 0;
}

size_t line_words(const struct line *line, struct word words[MAX_WORDS])
{
    size_t count = 0;
    size_t start = 0;
    for (size_t i = 0; i <= line->length; i++) {
        if (i < line->length && line->bytes[i] != ' ')
            continue;
        if (i == start || count == MAX_WORDS)
            return 0;
        words[count++] = (struct word){ line->bytes + start, i - start };
        start = i + 1;
    }
    return count;
}

bool word_is(struct word w, const char *text)
{
    return w.length == strlen(text) && memcmp(w.bytes, text, w.length) == 0;
}

bool word_number(struct word w, uint32_t *number)
{
    uint64_t value = 0;
    for (size_t i = 0; i < w.length; i++) {
        if (w.bytes[i] < '0' || w.bytes[i] > '9')
            return false;
        value = value * 10 + (uint64_t)(w.bytes[i] - '0');
        if (value > UINT32_MAX)
            return false;
    }
    *number = (uint32_t)value;
    return true;
}

static int hex_digit(char c)
{
    if (c >= '0' && c <= '9')
        return c - '0';
    return c >= 'a' && c <= 'f' ? c - 'a' + 10 : -1;
}

bool word_content(struct word w, uint8_t content[MAX_SCRIPT_CONTENT], uint32_t *length)
{
    *length = 0;
    if (word_is(w, "-"))
        return true;
    if (w.length % 2 != 0 || w.length / 2 > MAX_SCRIPT_CONTENT)
        return false;
    for (size_t i = 0; i < w.length; i += 2) {
        int high = hex_digit(w.bytes[i]);
        int low = hex_digit(w.bytes[i + 1]);
        if (high < 0 || low < 0)
            return false;
        content[(*length)++] = (uint8_t)(high * 16 + low);
    }
    return true;
}
