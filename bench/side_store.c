#include "sides.h"

const struct side store_side = {
    .format = us_format,
    .mount = us_mount,
    .begin = us_begin,
    .begin_lowest = us_begin_lowest,
    .commit = us_commit,
    .abort = us_abort,
    .write = us_write,
    .write_lowest = us_write_lowest,
    .remove = us_delete,
    .remove_lowest = us_delete_lowest,
    .read = us_read,
    .read_open = us_read_open,
    .read_at = us_read_at,
};
