/* Trips of a script with a table: away from the history, and back to it. */
#ifndef PEER_TABLE_TRIPS_H
#define PEER_TABLE_TRIPS_H

#include "table_emit.h"

/* Files that the history uses, and any. */
void choose_habit(void);
uint32_t habit_file(void);
uint32_t any_file(void);

/* Reads through the table, of files that are there, that are not, and that no store has. */
void read_file(uint32_t file);
void read_some(uint32_t most);

/* The call through the table at its stops, the first with no step; then reads, mounts and fills that may be refused or stopped too. */
void trip_table_stops(const struct call *c);

/* An entry, or the first one's state, becomes another: off by one, another file's, at a limit, any. */
void trip_table_damage(void);

/* A table of another length, with calls, and the same table brought to its length again. */
void trip_table_length(void);

/* The history goes on without the table, or with it on a copy: an older table beside a newer image, and the other way round. */
void trip_apart(void);

/* The image damaged, cut or extended beside a usable table. */
void trip_image(void);

/* Lines that are no commands, or out of range. */
void trip_table_wrong_lines(void);

/* A call that needs nothing of the history: any kind, at and over the limits. */
void random_through(void);

/* A call that takes the history on: through the table, or without it. */
void choose_call(struct call *c);
void step_on(bool through_table);

#endif
