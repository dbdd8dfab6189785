/* Undernshade: a store for numbered files on NOR flash.
 *
 * A store lives in one image, which you lend to every call as a pointer and a length: `units` units (erase blocks) of `size` bytes each.
 * The size is 512, 1024, 2048 or 4096; there are 3 to 64 units, and the image has exactly units * size bytes, at most 65,536. Files are
 * numbered 0 to 255 and have 0 to 256 bytes.
 * docs/FORMAT.md says what each word here means (unit, step, gap, handle, settled, ..), and what each byte of an image is.
 *
 * A first run (look at each report's number; all should be US_DONE):
 *     us_format(image, length, 1024, 8, US_ALL);
 *     us_begin (image, length, 1024, 8, US_ALL);
 *     us_write (image, length, 1024, 8, 7, bytes, 3, US_ALL);
 *     us_commit(image, length, 1024, 8, US_ALL);
 *     us_report r = us_read(image, length, 1024, 8, 7);   // r.number == US_DONE: r.length bytes at image + r.start
 *
 * At every start of the device call us_mount before anything else. It mends whatever a power cut left, and never refuses an image that only
 * these calls have written since a finished format. US_BAD_IMAGE then means that no format was finished here, or that something else has
 * changed the bytes: let the program format by itself only where nothing can be lost. A cut format may also leave an image that mounts,
 * with the old files or none: whoever formats has to see US_DONE. After a finished format no mount is needed.
 *
 * Room. A file takes 8 bytes and its length rounded up to even, all in one unit; an open transaction and a delete take 8 bytes each. A unit
 * has size - 16 bytes for them, and one unit is kept as the spare. When a file is replaced or deleted, the bytes of its content are free
 * again after the commit; those of an earlier write in the same transaction are free at once. They can be used once their unit is
 * reclaimed: what is still needed of it is copied to the spare, and it is erased. A write, delete or begin does that by itself where there
 * is no other room. The 8 bytes are not free again as long as a file that was put into the unit later is still there; only the 8 bytes of
 * another file, delete or transaction may take their place. So count 16 bytes, not 8, for a small file that has a transaction of its own
 * (bench/README.md says how many fit), and leave room for your largest transaction beside all that is committed. us_begin, us_write and
 * us_delete need room; us_mount, us_commit and us_abort need none. So a full store may refuse a delete too, and then only a format is left.
 * To be sure, try on a copy of the image: begin, write, commit, begin, delete; if all are US_DONE the write fits, and a delete still will.
 *
 * Where a file goes. Of the units that have room, us_begin, us_write and us_delete take the one with the smallest gap (free bytes in one
 * piece), on a tie the one with the lowest number. Their twins us_begin_lowest, us_write_lowest and us_delete_lowest take the one with the
 * lowest number: this is the old rule, for reference images. A store may mix both: the rule is not kept in the image. On the same image the
 * two answer US_NO_ROOM in the same cases.
 *
 * Memory. Nothing is kept between calls and nothing is allocated. In the archive of `tools/staticlib c_store`, which is for x86-64, a call
 * takes less than 1,024 bytes of stack; us_commit, us_abort and us_mount take less than 2,048. The archives of `tools/archive` have the
 * calls of all headers; there every call of this header takes less than 2,048, except these three on a Cortex-M0: less than 2,240.
 * These thirteen calls have 16 KB of code and constants on a Cortex-M3 (bench/CALLS.md has the other processors). The archive goes last on
 * the linker's line.
 *
 * Processors. `tools/staticlib c_store` makes the archive for x86-64 with the System V ABI: it wants the stack aligned to 16, and uses SSE
 * and the 128 bytes below the stack pointer; it needs memcpy and memset. `tools/archive TARGET` makes one for x86-64, 64-bit Arm, ARMv7-A
 * with hard float, a Cortex-M or a 32-bit RISC-V, from the same proved code (README.md has a table). Besides memcpy and memset the 32-bit
 * ones need a division of 64-bit numbers, which the compiler's own library has (libgcc, compiler-rt); the tool prints the names. A
 * Cortex-M3, M4, M7 or M33 has to allow unaligned accesses, as it does after a reset (UNALIGN_TRP of its CCR is 0).
 *
 * The image may stand at any address, and its bytes do not depend on the machine: a word has its low byte first. The reads write nothing
 * to it. Calls on different images may run at the same time; on one image nothing may run beside a call that changes it, not even a
 * read in an interrupt.
 *
 * Real flash. Lend memory, not the flash itself. What is proved is the image that a call leaves when it comes back; inside a step the two
 * bytes of a word, or the bytes of an erase, may be stored one after the other. So make each changing call, mount and format too, on
 * copies, with the allowances (the most steps that it may make) 1, 2, 3 .., and carry each step to the flash before the next one is made
 * (examples/real-flash.c is a whole program):
 *     for (n = 1;; n++) {
 *         memcpy(copy, before, length);                 // before: the image before the call
 *         r = us_write(copy, length, .., n);
 *         if (r.steps == n) carry(copy);                // it differs from what the flash holds by one step, the n-th
 *         if (r.number != US_STOPPED) break;            // DONE, or a refusal: no step is missing
 *     }
 * A table (undernshade_table.h) is copied with the image.
 * A step clears at least one bit of one 16-bit word at an even offset, or sets one whole unit to FF. A word is programmed up to four times
 * between two erases (a descriptor's flags), so the flash has to allow that, with no error-correcting code over the word. It is assumed
 * that the driver makes each step, even an erase, whole or not at all. There is no wear levelling: the units that files are written to most
 * wear first (bench/README.md, "One file of 100 bytes rewritten"). There is no checksum: if anything else changes a bit, that may go
 * unnoticed, show in a content, or make the image US_BAD_IMAGE.
 */
#ifndef UNDERNSHADE_H
#define UNDERNSHADE_H

#include <stddef.h>
#include <stdint.h>

#ifdef __cplusplus
extern "C" {
#endif

/* What a call answers. If several refusals apply, the first of 2, 3, 4, 5 and 11, 6, 7 and 8, 9, 10 is given; the refusals of the other
 * headers have their place among them. Refusals, 2 to 11, change no byte, and all other fields of the report are 0, except `from` of
 * US_ABSENT; an open transaction stays open with what it had.
 *
 *     us_format                 0 to 2              us_write       0 to 7, 10            us_read         0, 2 to 5, 9
 *     us_mount                  0 to 3              us_delete      0 to 5, 7, 9, 10      us_read_open    0, 2 to 5, 7, 9
 *     us_commit, us_abort       0 to 4, 7           us_begin       0 to 4, 8, 10         us_read_at      0, 2 to 4, 11
 *
 * us_write_lowest, us_delete_lowest and us_begin_lowest answer what us_write, us_delete and us_begin do.
 */
enum {
    US_DONE = 0,           /* all steps made */
    US_STOPPED = 1,        /* the allowance ended the call: its first steps were made. Call us_mount; after us_format, us_format again */
    US_BAD_GEOMETRY = 2,   /* size, units or length is not as above */
    US_BAD_IMAGE = 3,      /* left only by a format that was cut or by something other than these calls: format it, or restore a copy */
    US_UNSETTLED = 4,      /* a power cut left work to do, and reads wait for it too: call us_mount */
    US_BAD_FILE = 5,       /* file is over 255 */
    US_TOO_LONG = 6,       /* content over 256 bytes */
    US_NO_TRANSACTION = 7, /* us_begin first */
    US_OPEN = 8,           /* a transaction is open already: commit or abort it */
    US_ABSENT = 9,         /* no such file in this view; an empty file is not absent */
    US_NO_ROOM = 10,       /* no unit has enough bytes in one piece, not even if it is reclaimed. A smaller write may still fit */
    US_BAD_HANDLE = 11     /* no committed file's bytes stand at the handle */
};

/* The allowance: at most this many steps are made, and then the call stops as a power cut would stop it. It is for tests, and for the loop
 * under "Real flash"; otherwise give US_ALL, which no call uses up. */
#define US_ALL UINT32_MAX

/* The version of this header and of its archive, major * 100 + minor. The major number rises when a program or a stored image has to
 * change, the minor one when something is added. */
#define US_VERSION 100

/* Where the answer of us_read_open came from, if it is US_DONE or US_ABSENT, and that of us_delete if it is US_ABSENT. No other answer
 * says it. */
enum {
    US_NOT_SAID = 0,
    US_COMMITTED_BEFORE = 1, /* the open transaction has not changed the file: the content is the committed one, or there is none */
    US_THIS_TRANSACTION = 2  /* the open transaction wrote this content, or deleted the file, perhaps one that it had written itself */
};

/* What each field holds when the call is US_DONE; what is not named is 0. US_STOPPED has only steps.
 *
 *     us_format, us_mount, us_commit, us_abort    steps
 *     us_begin, us_delete, and their _lowest      steps; unit and position too, but no file stands there: do not use them
 *     us_write, us_write_lowest                   steps, unit and position: the file's handle once it is committed
 *     us_read, us_read_open                       unit and position: the file's handle; start, length; us_read_open also from
 *     us_read_at                                  file, start, length
 */
typedef struct {
    uint32_t number; /* one of the above */
    uint32_t steps;  /* words programmed and units erased */
    size_t unit;     /* a handle: a unit's logical number, which it keeps when it is moved ... */
    size_t position; /* ... and the position in it; 0 and 0 is a handle like any other */
    size_t file;     /* the file's number */
    size_t start;    /* the content stands at image + start ... */
    size_t length;   /* ... and has this many bytes, perhaps none */
    uint32_t from;   /* where the answer came from: one of the three above */
} us_report;

/* Makes an empty store, whatever bytes stood there. If it is stopped, call it again. */
us_report us_format(uint8_t *image, size_t image_length, uint32_t size, uint32_t units, uint32_t allowance);

/* Mends what a power cut left, and ends an open transaction. Committed transactions are kept; no read shows anything of the others. */
us_report us_mount(uint8_t *image, size_t image_length, uint32_t size, uint32_t units, uint32_t allowance);

/* Opens the one transaction. Writes and deletes go into it; us_commit makes all of them hold at once, us_abort drops them.
 *
 * us_write replaces the file whole. `content` must not lie in the image: copy it out first. If content_length is 0, `content` is not looked
 * at. us_begin and us_delete need room too, eight bytes: do not fill a store to US_NO_ROOM ("Room" above). */
us_report us_begin(uint8_t *image, size_t image_length, uint32_t size, uint32_t units, uint32_t allowance);
us_report us_write(uint8_t *image, size_t image_length, uint32_t size, uint32_t units, uint32_t file, const uint8_t *content,
                   size_t content_length, uint32_t allowance);
us_report us_delete(uint8_t *image, size_t image_length, uint32_t size, uint32_t units, uint32_t file, uint32_t allowance);

/* The same by the old rule: in the lowest unit that fits. */
us_report us_begin_lowest(uint8_t *image, size_t image_length, uint32_t size, uint32_t units, uint32_t allowance);
us_report us_write_lowest(uint8_t *image, size_t image_length, uint32_t size, uint32_t units, uint32_t file, const uint8_t *content,
                          size_t content_length, uint32_t allowance);
us_report us_delete_lowest(uint8_t *image, size_t image_length, uint32_t size, uint32_t units, uint32_t file, uint32_t allowance);

us_report us_commit(uint8_t *image, size_t image_length, uint32_t size, uint32_t units, uint32_t allowance);
us_report us_abort(uint8_t *image, size_t image_length, uint32_t size, uint32_t units, uint32_t allowance);

/* us_read: what is committed. us_read_open: what the open transaction shows, or US_NO_TRANSACTION if none is open; r.from says whether that
 * is the transaction's own or was committed before. The bytes are your image's own: they may move at the next changing call.
 *
 * us_read_at: what is committed at a handle, without naming the file. While its file is unchanged a handle shows the same file and bytes,
 * whatever is written, reclaimed, cut or mounted meanwhile. Once the file is replaced or deleted the handle is refused or shows another
 * content, perhaps of another file: compare r.file. */
us_report us_read(const uint8_t *image, size_t image_length, uint32_t size, uint32_t units, uint32_t file);
us_report us_read_open(const uint8_t *image, size_t image_length, uint32_t size, uint32_t units, uint32_t file);
us_report us_read_at(const uint8_t *image, size_t image_length, uint32_t size, uint32_t units, size_t unit, size_t position);

#ifdef __cplusplus
}
#endif

#endif
