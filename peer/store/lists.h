/* The lists of intents of format, store, commit, abort and mount. */
#ifndef PEER_LISTS_H
#define PEER_LISTS_H

#include "job.h"
#include "judge.h"
#include "place.h"

/* A sector to be stored; content is needed only where length is not 0. */
struct sector {
    uint16_t tag;
    uint32_t length;
    const uint8_t *content;
};

void list_format(struct job *j, const struct flash *f);
void list_store(struct job *j, const struct flash *f, struct store *s, struct sector new, struct place place);
void list_commit(struct job *j, const struct flash *f, const struct store *s);
void list_abort(struct job *j, const struct flash *f, const struct store *s);
void list_mount(struct job *j, const struct flash *f, const struct store *s);

#endif
