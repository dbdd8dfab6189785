#include "../peer/store/store.h"
#include "sides.h"

/* The second program's reads change nothing; its image is not const. */
static struct flash flash(const uint8_t *image, size_t length, uint32_t size, uint32_t units)
{
    return (struct flash){ .image = (uint8_t *)(uintptr_t)image, .length = length, .unit_size = size, .units = units };
}

static us_report report(struct answer a)
{
    return (us_report){ .number = a.number,
                        .steps = a.steps,
                        .unit = a.at.unit,
                        .position = a.at.position,
                        .file = a.file,
                        .start = a.start,
                        .length = a.length,
                        .from = a.from };
}

#define CHANGE(name)                                                                                                 \
    static us_report second_##name(uint8_t *image, size_t length, uint32_t size, uint32_t units, uint32_t allowance) \
    {                                                                                                                \
        return report(store_##name(flash(image, length, size, units), allowance));                                   \
    }

CHANGE(format)
CHANGE(mount)
CHANGE(begin)
CHANGE(commit)
CHANGE(abort)

static us_report second_begin_lowest(uint8_t *image, size_t length, uint32_t size, uint32_t units, uint32_t allowance)
{
    return report(store_begin_by(flash(image, length, size, units), LOWEST, allowance));
}

static us_report second_write(uint8_t *image, size_t length, uint32_t size, uint32_t units, uint32_t file, const uint8_t *content,
                              size_t content_length, uint32_t allowance)
{
    return report(store_write(flash(image, length, size, units), file, content, (uint32_t)content_length, allowance));
}

static us_report second_delete(uint8_t *image, size_t length, uint32_t size, uint32_t units, uint32_t file, uint32_t allowance)
{
    return report(store_delete(flash(image, length, size, units), file, allowance));
}

static us_report second_write_lowest(uint8_t *image, size_t length, uint32_t size, uint32_t units, uint32_t file, const uint8_t *content,
                                     size_t content_length, uint32_t allowance)
{
    return report(store_write_by(flash(image, length, size, units), LOWEST, file, content, (uint32_t)content_length, allowance));
}

static us_report second_delete_lowest(uint8_t *image, size_t length, uint32_t size, uint32_t units, uint32_t file, uint32_t allowance)
{
    return report(store_delete_by(flash(image, length, size, units), LOWEST, file, allowance));
}

static us_report second_read(const uint8_t *image, size_t length, uint32_t size, uint32_t units, uint32_t file)
{
    return report(store_read(flash(image, length, size, units), file));
}

static us_report second_read_open(const uint8_t *image, size_t length, uint32_t size, uint32_t units, uint32_t file)
{
    return report(store_read_transaction(flash(image, length, size, units), file));
}

static us_report second_read_at(const uint8_t *image, size_t length, uint32_t size, uint32_t units, size_t unit, size_t position)
{
    return report(store_read_handle(flash(image, length, size, units), (struct handle){ (uint32_t)unit, (uint32_t)position }));
}

const struct side second_side = {
    .format = second_format,
    .mount = second_mount,
    .begin = second_begin,
    .begin_lowest = second_begin_lowest,
    .commit = second_commit,
    .abort = second_abort,
    .write = second_write,
    .write_lowest = second_write_lowest,
    .remove = second_delete,
    .remove_lowest = second_delete_lowest,
    .read = second_read,
    .read_open = second_read_open,
    .read_at = second_read_at,
};
