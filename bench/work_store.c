/* The store, with THROUGH_TABLE its calls through a table: an update is a transaction of one write. */
#include "work.h"

#include <string.h>

#include "../include/undernshade_table.h"

static uint8_t image[WORK_SIZE * WORK_UNITS];
uint32_t work_programmed, work_erased;

#ifdef THROUGH_TABLE
static us_entry table[US_ENTRIES];
const size_t work_memory = sizeof image + sizeof table;
#define CALL(name) us_table_##name
#define IMAGE image, sizeof image, WORK_SIZE, WORK_UNITS, table, US_ENTRIES
#else
const size_t work_memory = sizeof image;
#define CALL(name) us_##name
#define IMAGE image, sizeof image, WORK_SIZE, WORK_UNITS
#endif

/* Whether a unit was erased: the spare is the unit with no logical number, and a call that reclaims a unit leaves that one as the spare. */
static bool erased(void)
{
    static uint32_t spare;
    if ((image[spare * WORK_SIZE] & image[spare * WORK_SIZE + 1]) == 0xFF)
        return false;
    for (spare = 0; (image[spare * WORK_SIZE] & image[spare * WORK_SIZE + 1]) != 0xFF; spare++)
        ;
    return true;
}

static bool done(us_report r)
{
    uint32_t erases = erased();
    work_erased += erases;
    work_programmed += r.steps - erases;
    return r.number == US_DONE;
}

bool work_format(void)
{
    return done(CALL(format)(IMAGE, US_ALL));
}

bool work_mount(void)
{
    return done(CALL(mount)(IMAGE, US_ALL));
}

bool work_update(uint32_t file, const uint8_t *content)
{
    return done(CALL(begin)(IMAGE, US_ALL)) && done(CALL(write)(IMAGE, file, content, WORK_LENGTH, US_ALL)) &&
           done(CALL(commit)(IMAGE, US_ALL));
}

bool work_read(uint32_t file, uint8_t *content)
{
    us_report r = CALL(read)(IMAGE, file);
    if (r.number != US_DONE || r.length != WORK_LENGTH)
        return false;
    memcpy(content, image + r.start, WORK_LENGTH);
    return true;
}
