/* Reading a script: lines, the words of a line, numbers and contents. */
#ifndef PEER_SCRIPT_H
#define PEER_SCRIPT_H

#include <stdbool.h>
#include <stddef.h>
#include <stdint.h>
#include <stdio.h>

enum { MAX_WORDS = 4, MAX_SCRIPT_CONTENT = 1024 };

/* A growing buffer that holds one line without its line feed, any bytes. */
struct line {
    char *bytes;
    size_t length;
    size_t room;
};

struct word {
    const char *bytes;
    size_t length;
};

/* False at the end of the input; a last line without a line feed is a line if it has any byte. */
bool line_read(struct line *line, FILE *in);

/* The number of words between single spaces, or 0 where an empty or a fifth word stands. */
size_t line_words(const struct line *line, struct word words[MAX_WORDS]);

bool word_is(struct word w, const char *text);
bool word_number(struct word w, uint32_t *number);
bool word_content(struct word w, uint8_t content[MAX_SCRIPT_CONTENT], uint32_t *length);

#endif
