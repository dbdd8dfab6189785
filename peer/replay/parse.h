/* One line of a script taken apart: which command, its numbers, its content. */
#ifndef PEER_PARSE_H
#define PEER_PARSE_H

#include "script.h"

enum verb {
    VERB_NEW,
    VERB_SIZE,
    VERB_PUT,
    VERB_KEEP,
    VERB_BACK,
    VERB_FORMAT,
    VERB_MOUNT,
    VERB_BEGIN,
    VERB_COMMIT,
    VERB_ABORT,
    VERB_WRITE,
    VERB_DELETE,
    VERB_READ,
    VERB_READTX,
    VERB_READAT,
    VERB_JUDGE,
    VERB_LIST,
    VERB_GIVE,
    VERB_STAFF,
    VERB_REGISTER,
    VERB_BEGIN_LOWEST,
    VERB_WRITE_LOWEST,
    VERB_DELETE_LOWEST,
    VERB_TFORMAT,
    VERB_TMOUNT,
    VERB_TBEGIN,
    VERB_TCOMMIT,
    VERB_TABORT,
    VERB_TWRITE,
    VERB_TDELETE,
    VERB_TFILL,
    VERB_TREAD,
    VERB_TSIZE,
    VERB_TPUT,
    VERB_TKEEP,
    VERB_TBACK,
    VERB_TSHOW,
    VERB_TENTRY,
    VERBS
};

/* From VERB_TFORMAT on: a line of the table. Numbers in their order, the content where there is one. */
struct command {
    enum verb verb;
    uint32_t number[3];
    uint32_t length;
    uint8_t content[MAX_SCRIPT_CONTENT];
};

/* False where the line is no command, or a number is over 32 bits or a content over its length. */
bool command_parse(const struct line *line, struct command *c);

#endif
