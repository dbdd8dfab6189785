/* Undernshade: a table beside the image, so that reads need no search.
 *
 * us_read (undernshade.h) looks at the whole image each time. Here you lend a table of 256 entries beside the image, one for each file:
 * whether it is there, its handle and its length. us_table_mount and us_table_format fill it, us_table_commit mends (updates) the entries
 * of the files that it changes, and us_table_read looks at one entry and one unit's descriptors:
 *
 *     static us_entry table[US_ENTRIES];                                       // 1,536 bytes of your memory; beside the image, not in it
 *     us_table_mount(image, length, 1024, 8, table, US_ENTRIES, US_ALL);       // at every start; US_DONE: the table is filled
 *     us_report r = us_table_read(image, length, 1024, 8, table, US_ENTRIES, 7);   // as us_read(image, length, 1024, 8, 7)
 *     us_table_begin (image, length, 1024, 8, table, US_ENTRIES, US_ALL);
 *     us_table_write (image, length, 1024, 8, table, US_ENTRIES, 7, bytes, 3, US_ALL);
 *     us_table_commit(image, length, 1024, 8, table, US_ENTRIES, US_ALL);      // file 7's entry is mended, no other is touched
 *
 * When a table may be used: from a us_table_mount, us_table_format or us_table_fill that was US_DONE on, as long as every call that changes
 * the image goes through the table. Reads of undernshade.h may come between; its other calls, and us_give, may not: after them call
 * us_table_fill. A call that is US_STOPPED, even one that made no step, leaves the table unusable, marked in its first entry, until a
 * mount, format or fill is US_DONE. A refused call leaves it as it was. A table that nobody filled, all zeros or all FF, is unusable too: a
 * read through it never answers US_ABSENT.
 *
 * What is promised (docs/PROMISES.md). Through a usable table every call answers as the call without a table does, and leaves the same
 * image. After every call that is US_DONE the table equals one filled afresh. Where table and image were last left by the same call, a read
 * through a usable table answers as us_read does. And of any table and any image: a read comes back; on a settled image (one that needs no
 * mount) its US_DONE is us_read's own answer; a content lies in the image and has at most 256 bytes; 2, 3, 4, 5 and 12 are given only where
 * they are due.
 *
 * What is not promised. A read that finds its answer in a usable table does not judge the image again: it relies on the judgement of the
 * call that left the table. Where something else has changed the image since, it may answer US_ABSENT for a file that the table does not
 * know, and US_DONE or US_ABSENT where us_read answers US_BAD_IMAGE or US_UNSETTLED. us_read judges every time.
 *
 * Memory. The table is yours: 256 entries of 6 bytes, aligned to 2. Nothing else is kept. us_table_format, us_table_mount and
 * us_table_commit take less than 4,096 bytes of stack, the others less than 3,072.
 *
 * Real flash is as in undernshade.h, and the table is copied with the image: every try with a small allowance marks it
 * (examples/table-flash.c is a whole program):
 *     for (n = 1;; n++) {
 *         memcpy(copy, before, length);                 // before: the image before the call
 *         memcpy(tried, table, sizeof table);
 *         r = us_table_write(copy, length, .., tried, US_ENTRIES, .., n);
 *         if (r.steps == n) carry(copy);
 *         if (r.number != US_STOPPED) break;
 *     }
 *     memcpy(table, tried, sizeof table);
 */
#ifndef UNDERNSHADE_TABLE_H
#define UNDERNSHADE_TABLE_H

#include "undernshade.h"

#ifdef __cplusplus
extern "C" {
#endif

/* A table has exactly this many entries, entry f for file f: any other number is US_BAD_GEOMETRY. */
#define US_ENTRIES 256

/* One further refusal. If several apply, the first of 2, 3, 4, 12, 5, 6, 7 and 8, 9, 10 is given. A refusal changes no byte of the image
 * and no entry of the table.
 *
 *     us_table_format                      0 to 2              us_table_write     0 to 7, 10, 12
 *     us_table_mount                       0 to 3              us_table_delete    0 to 5, 7, 9, 10, 12
 *     us_table_fill                        0, 2 to 4           us_table_begin     0 to 4, 8, 10, 12
 *     us_table_commit, us_table_abort      0 to 4, 7, 12       us_table_read      0, 2 to 5, 9, 12
 *
 * US_STALE_TABLE: the table is unusable, or a read found that the file's entry is not true of the image. Call us_table_fill or
 * us_table_mount; neither these two nor us_table_format ever gives it.
 */
enum { US_STALE_TABLE = 12 };

/* What a state says. A table whose first entry has any other state is unusable. */
enum {
    US_ENTRY_NO_FILE = 1, /* the other three numbers are 0 */
    US_ENTRY_FILE = 2     /* an empty file too */
};

/* One file in the committed view. */
typedef struct {
    uint8_t state; /* one of the two above; 0 in the first entry is the mark of a stopped call */
    uint8_t unit;  /* the file's handle, as us_read gives it ... */
    uint16_t position;
    uint16_t length; /* ... and its bytes, perhaps none */
} us_entry;

/* The calls of undernshade.h through a table: the same arguments, with the table and its number of entries after the geometry, and the same
 * report. The table must not lie in the image. */
us_report us_table_format(uint8_t *image, size_t image_length, uint32_t size, uint32_t units, us_entry *table, size_t entries,
                          uint32_t allowance);
us_report us_table_mount(uint8_t *image, size_t image_length, uint32_t size, uint32_t units, us_entry *table, size_t entries,
                         uint32_t allowance);
us_report us_table_begin(uint8_t *image, size_t image_length, uint32_t size, uint32_t units, us_entry *table, size_t entries,
                         uint32_t allowance);
us_report us_table_write(uint8_t *image, size_t image_length, uint32_t size, uint32_t units, us_entry *table, size_t entries, uint32_t file,
                         const uint8_t *content, size_t content_length, uint32_t allowance);
us_report us_table_delete(uint8_t *image, size_t image_length, uint32_t size, uint32_t units, us_entry *table, size_t entries,
                          uint32_t file, uint32_t allowance);
us_report us_table_commit(uint8_t *image, size_t image_length, uint32_t size, uint32_t units, us_entry *table, size_t entries,
                          uint32_t allowance);
us_report us_table_abort(uint8_t *image, size_t image_length, uint32_t size, uint32_t units, us_entry *table, size_t entries,
                         uint32_t allowance);

/* Fills the table from a settled image, without a step: for use after changes that did not go through it. On an image that a power cut left
 * unsettled the answer is US_UNSETTLED: us_table_mount mends and fills. The report has only its number. */
us_report us_table_fill(const uint8_t *image, size_t image_length, uint32_t size, uint32_t units, us_entry *table, size_t entries);

/* What is committed, through the table. It writes neither to the image nor to the table. */
us_report us_table_read(const uint8_t *image, size_t image_length, uint32_t size, uint32_t units, const us_entry *table, size_t entries,
                        uint32_t file);

#ifdef __cplusplus
}
#endif

#endif
