/* Calls that do nothing: what the way to a call takes, to be left out of its count. */
#include "sides.h"

static us_report change_nothing(uint8_t *image, size_t image_length, uint32_t size, uint32_t units, uint32_t allowance)
{
    (void)image, (void)image_length, (void)size, (void)units, (void)allowance;
    return (us_report){ 0 };
}

static us_report store_nothing(uint8_t *image, size_t image_length, uint32_t size, uint32_t units, uint32_t file, const uint8_t *content,
                               size_t content_length, uint32_t allowance)
{
    (void)image, (void)image_length, (void)size, (void)units, (void)file, (void)content, (void)content_length, (void)allowance;
    return (us_report){ 0 };
}

static us_report delete_nothing(uint8_t *image, size_t image_length, uint32_t size, uint32_t units, uint32_t file, uint32_t allowance)
{
    (void)image, (void)image_length, (void)size, (void)units, (void)file, (void)allowance;
    return (us_report){ 0 };
}

static us_report read_nothing(const uint8_t *image, size_t image_length, uint32_t size, uint32_t units, uint32_t file)
{
    (void)image, (void)image_length, (void)size, (void)units, (void)file;
    return (us_report){ 0 };
}

static us_report read_nothing_at(const uint8_t *image, size_t image_length, uint32_t size, uint32_t units, size_t unit, size_t position)
{
    (void)image, (void)image_length, (void)size, (void)units, (void)unit, (void)position;
    return (us_report){ 0 };
}

const struct side empty_side = {
    .format = change_nothing,
    .mount = change_nothing,
    .begin = change_nothing,
    .begin_lowest = change_nothing,
    .commit = change_nothing,
    .abort = change_nothing,
    .write = store_nothing,
    .write_lowest = store_nothing,
    .remove = delete_nothing,
    .remove_lowest = delete_nothing,
    .read = read_nothing,
    .read_open = read_nothing,
    .read_at = read_nothing_at,
};
