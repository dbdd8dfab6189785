#include "parse.h"

#include <string.h>

/* In arguments, n stands for a number and c for a content. */
struct form {
    const char *name;
    const char *arguments;
};

static const struct form forms[VERBS] = { [VERB_NEW] = { "new", "nn" },
                                          [VERB_SIZE] = { "size", "n" },
                                          [VERB_PUT] = { "put", "nn" },
                                          [VERB_KEEP] = { "keep", "" },
                                          [VERB_BACK] = { "back", "" },
                                          [VERB_FORMAT] = { "format", "n" },
                                          [VERB_MOUNT] = { "mount", "n" },
                                          [VERB_BEGIN] = { "begin", "n" },
                                          [VERB_COMMIT] = { "commit", "n" },
                                          [VERB_ABORT] = { "abort", "n" },
                                          [VERB_WRITE] = { "write", "ncn" },
                                          [VERB_DELETE] = { "delete", "nn" },
                                          [VERB_READ] = { "read", "n" },
                                          [VERB_READTX] = { "readtx", "n" },
                                          [VERB_READAT] = { "readat", "nn" },
                                          [VERB_JUDGE] = { "judge", "" },
                                          [VERB_LIST] = { "list", "" },
                                          [VERB_GIVE] = { "give", "nnn" },
                                          [VERB_STAFF] = { "staff", "" },
                                          [VERB_REGISTER] = { "register", "" },
                                          [VERB_BEGIN_LOWEST] = { "begin-lowest", "n" },
                                          [VERB_WRITE_LOWEST] = { "write-lowest", "ncn" },
                                          [VERB_DELETE_LOWEST] = { "delete-lowest", "nn" },
                                          [VERB_TFORMAT] = { "tformat", "n" },
                                          [VERB_TMOUNT] = { "tmount", "n" },
                                          [VERB_TBEGIN] = { "tbegin", "n" },
                                          [VERB_TCOMMIT] = { "tcommit", "n" },
                                          [VERB_TABORT] = { "tabort", "n" },
                                          [VERB_TWRITE] = { "twrite", "ncn" },
                                          [VERB_TDELETE] = { "tdelete", "nn" },
                                          [VERB_TFILL] = { "tfill", "" },
                                          [VERB_TREAD] = { "tread", "n" },
                                          [VERB_TSIZE] = { "tsize", "n" },
                                          [VERB_TPUT] = { "tput", "nn" },
                                          [VERB_TKEEP] = { "tkeep", "" },
                                          [VERB_TBACK] = { "tback", "" },
                                          [VERB_TSHOW] = { "tshow", "" },
                                          [VERB_TENTRY] = { "tentry", "n" } };

static bool take_arguments(const char *kinds, const struct word *words, struct command *c)
{
    uint32_t numbers = 0;
    for (size_t i = 0; kinds[i] != '\0'; i++) {
        if (kinds[i] == 'c' && !word_content(words[i], c->content, &c->length))
            return false;
        if (kinds[i] == 'n' && !word_number(words[i], &c->number[numbers++]))
            return false;
    }
    return true;
}

bool command_parse(const struct line *line, struct command *c)
{
    struct word words[MAX_WORDS];
    size_t count = line_words(line, words);
    for (uint32_t v = 0; count > 0 && v < VERBS; v++) {
        if (!word_is(words[0], forms[v].name))
            continue;
        c->verb = (enum verb)v;
        return count == 1 + strlen(forms[v].arguments) && take_arguments(forms[v].arguments, words + 1, c);
    }
    return false;
}
