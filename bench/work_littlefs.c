/* littlefs, on a flash in memory: an update opens a file, writes it anew and closes it. */
#include "work.h"

#include <string.h>

#include "lfs2.h"

enum { CACHE = 64, LOOKAHEAD = 8 };

static uint8_t flash[WORK_SIZE * WORK_UNITS];
uint32_t work_programmed, work_erased;

static int read_flash(const struct lfs2_config *c, lfs2_block_t block, lfs2_off_t at, void *to, lfs2_size_t length)
{
    (void)c;
    memcpy(to, flash + block * WORK_SIZE + at, length);
    return 0;
}

static int program_flash(const struct lfs2_config *c, lfs2_block_t block, lfs2_off_t at, const void *from, lfs2_size_t length)
{
    (void)c;
    memcpy(flash + block * WORK_SIZE + at, from, length);
    work_programmed += length / 2;
    return 0;
}

static int erase_flash(const struct lfs2_config *c, lfs2_block_t block)
{
    (void)c;
    memset(flash + block * WORK_SIZE, 0xFF, WORK_SIZE);
    work_erased++;
    return 0;
}

static int sync_flash(const struct lfs2_config *c)
{
    (void)c;
    return 0;
}

static struct {
    lfs2_t lfs;
    lfs2_file_t file;
    uint32_t read[CACHE / 4], program[CACHE / 4], of_file[CACHE / 4], lookahead[LOOKAHEAD / 4];
} memory;
const size_t work_memory = sizeof memory;

static const struct lfs2_config config = {
    .read = read_flash,
    .prog = program_flash,
    .erase = erase_flash,
    .sync = sync_flash,
    .read_size = 2,
    .prog_size = 2,
    .block_size = WORK_SIZE,
    .block_count = WORK_UNITS,
    .block_cycles = 500,
    .cache_size = CACHE,
    .lookahead_size = LOOKAHEAD,
    .read_buffer = memory.read,
    .prog_buffer = memory.program,
    .lookahead_buffer = memory.lookahead,
};
static const struct lfs2_file_config of_file = { .buffer = memory.of_file };

/* The file's name: two letters. */
static bool open_file(uint32_t file, int how)
{
    const char name[] = { (char)('a' + file / 16), (char)('a' + file % 16), '\0' };
    return lfs2_file_opencfg(&memory.lfs, &memory.file, name, how, &of_file) == 0;
}

bool work_format(void)
{
    return lfs2_format(&memory.lfs, &config) == 0 && lfs2_mount(&memory.lfs, &config) == 0;
}

bool work_mount(void)
{
    return lfs2_mount(&memory.lfs, &config) == 0;
}

bool work_update(uint32_t file, const uint8_t *content)
{
    return open_file(file, LFS2_O_WRONLY | LFS2_O_CREAT | LFS2_O_TRUNC) &&
           lfs2_file_write(&memory.lfs, &memory.file, content, WORK_LENGTH) == WORK_LENGTH &&
           lfs2_file_close(&memory.lfs, &memory.file) == 0;
}

bool work_read(uint32_t file, uint8_t *content)
{
    return open_file(file, LFS2_O_RDONLY) && lfs2_file_read(&memory.lfs, &memory.file, content, WORK_LENGTH) == WORK_LENGTH &&
           lfs2_file_close(&memory.lfs, &memory.file) == 0;
}
