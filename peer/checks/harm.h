/* Harm to one image, of which the verdict is not known beforehand. */
#ifndef PEER_HARM_H
#define PEER_HARM_H

#include "bench.h"

/* Any of: a byte, a header, a descriptor, a move begun, the transaction. */
void harm(struct bench *b);

/* Puts words of a home's copy on the spare; now and then all of them, and seals the move. */
void harm_by_move(struct bench *b);

/* A descriptor of a home. */
void harm_home(struct bench *b);

/* A word, or a whole descriptor, where all should be erased. */
void harm_gap(struct bench *b);

/* The outermost bytes of what is looked at: one further or one short is another byte. */
void harm_edge(struct bench *b);

/* A word of a descriptor becomes the last that is right, or the first that is not. */
void harm_bound(struct bench *b);

/* A sector is put right beside another one, or one word into it. */
void harm_overlap(struct bench *b);

/* One word of a copy being made, or made, or the state of one of the two units. */
void harm_copy(struct bench *b);

#endif
