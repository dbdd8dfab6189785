/* What the depot keeps in the store: a staff list with the people's names, night passes and their register, a setting and a notice. */
#ifndef FIRMWARE_DEPOT_H
#define FIRMWARE_DEPOT_H

#include "calls.h"

/* Numbers of files. The list, the register and the passes have the texts of undernshade_passes.h, and us_give alone writes the register and
 * the passes. The terminal's own files stand from 128 on: the names of the people on the list are NAMES and the files behind it, four in
 * each. */
enum { LIST = 0, REGISTER = 1, PASS = 2, DOOR = 128, NOTICE = 129, NAMES = 130 };
enum { MOST_PARTS = 4, NAMES_IN_PART = 4, MOST_PEOPLE = MOST_PARTS * NAMES_IN_PART, MOST_PASSES = 126 };
enum { LONGEST_NAME = 40, LARGEST_NIGHT = 999, LARGEST_PERSON = 65535 };

/* People by ascending number. */
struct staff {
    uint32_t night;
    uint32_t zone;
    uint32_t people;
    uint32_t number[MOST_PEOPLE];
    char name[MOST_PEOPLE][LONGEST_NAME];
};

/* What a store holds, by us_staff, us_register and the committed files. */
struct held {
    bool is_whole;      /* no list that is none, no half of the names, no pass with one name, and the register counts the passes */
    struct staff staff; /* no people where there is no list */
    uint32_t parts;     /* of its names */
    uint32_t passes;
    uint32_t holder[MOST_PASSES][2];
    char text[256]; /* in one line */
};

/* Looks at so many passes, and no further; MOST_PASSES are all. */
void depot_look(const struct flash *f, struct held *held, uint32_t passes);

/* Adds the calls of one transaction: a list taken where one stood whose names had parts_before parts. */
void depot_take(struct history *h, const struct staff *s, uint32_t parts_before);

/* Adds the one call that gives a pass. */
struct call *depot_pass(struct history *h, uint32_t first, uint32_t second);

enum { FEWEST_NIGHTS = 2, MOST_NIGHTS = 14, USUAL_NIGHTS = 3, MOST_STORY_PASSES = 40 };

/* From a new chip to the last night: settings, a staff list for each night, two passes, a list that is given up, and passes that are
 * refused. */
void depot_story(struct history *h, uint32_t nights);

/* Passes behind the story, more than a small store has room for. */
void depot_fill(struct history *h, uint32_t passes);

#endif
