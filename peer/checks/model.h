/* What a store must answer, told from the calls made: a plain map with an overlay. */
#ifndef PEER_MODEL_H
#define PEER_MODEL_H

#include "run.h"

enum { MAX_POOL = 24 };

enum overlay { OVERLAY_NONE, OVERLAY_DATA, OVERLAY_MARK };

struct content {
    uint32_t length;
    uint8_t bytes[MAX_CONTENT];
    struct handle at;
};

/* One of the files that a history uses. */
struct entry {
    uint32_t file;
    bool is_committed;
    struct content committed;
    enum overlay overlay;
    struct content pending; /* for a mark: its handle and length 0 */
};

/* mend: steps of a mount before it touches the transaction or anything pending.
   goes_on: once mended the image is settled, the transaction open as it was if it was.
   rest: where it does not go on, the steps of a mount after mending. */
struct model {
    uint32_t pool;
    struct entry entry[MAX_POOL]; /* by file, ascending */
    bool open;
    struct handle transaction;
    uint32_t mend;
    bool goes_on;
    uint32_t rest;
};

/* What a call must give when no allowance stops it; reclaim is 0 where nothing is reclaimed. */
struct prediction {
    uint32_t number;
    uint32_t steps;
    uint32_t reclaim;
    uint32_t reclaimed;
    struct handle at;
    enum from from;
};

void model_fresh(struct model *m);
bool model_is_settled(const struct model *m);
uint32_t model_mount_steps(const struct model *m);
uint32_t model_pending(const struct model *m);

/* The entry of a file, or NULL where the history does not use the file. */
const struct entry *model_entry(const struct model *m, uint32_t file);

/* The content in a view, or NULL where the file is absent. */
const struct content *model_committed(const struct model *m, uint32_t file);
const struct content *model_in_transaction(const struct model *m, uint32_t file);

/* Where the content in the transaction view came from, and where the file is absent whether it was deleted in the transaction. */
enum from model_from(const struct model *m, uint32_t file);

/* The committed entry that has this handle, or NULL. */
const struct entry *model_at(const struct model *m, struct handle at);

struct prediction model_predict(const struct model *m, const struct bench *b, const struct call *c);

/* What becomes of the model when the first `made` steps of the call's list are made. */
void model_apply(struct model *m, const struct call *c, const struct prediction *p, uint32_t made);

#endif
