/* The store's calls for C, answered by the second program: what the terminal does with either store can be compared. */
#include "../include/undernshade_passes.h"
#include "../peer/store/passes.h"

static us_report report(struct answer a)
{
    return (us_report){ a.number, a.steps, a.at.unit, a.at.position, a.file, a.start, a.length, a.from };
}

us_report us_format(uint8_t *image, size_t image_length, uint32_t size, uint32_t units, uint32_t allowance)
{
    return report(store_format((struct flash){ image, image_length, size, units }, allowance));
}

us_report us_mount(uint8_t *image, size_t image_length, uint32_t size, uint32_t units, uint32_t allowance)
{
    return report(store_mount((struct flash){ image, image_length, size, units }, allowance));
}

us_report us_begin(uint8_t *image, size_t image_length, uint32_t size, uint32_t units, uint32_t allowance)
{
    return report(store_begin((struct flash){ image, image_length, size, units }, allowance));
}

us_report us_write(uint8_t *image, size_t image_length, uint32_t size, uint32_t units, uint32_t file, const uint8_t *content,
                   size_t content_length, uint32_t allowance)
{
    uint32_t length = content_length > UINT32_MAX ? UINT32_MAX : (uint32_t)content_length;
    return report(store_write((struct flash){ image, image_length, size, units }, file, content, length, allowance));
}

us_report us_delete(uint8_t *image, size_t image_length, uint32_t size, uint32_t units, uint32_t file, uint32_t allowance)
{
    return report(store_delete((struct flash){ image, image_length, size, units }, file, allowance));
}

us_report us_commit(uint8_t *image, size_t image_length, uint32_t size, uint32_t units, uint32_t allowance)
{
    return report(store_commit((struct flash){ image, image_length, size, units }, allowance));
}

us_report us_abort(uint8_t *image, size_t image_length, uint32_t size, uint32_t units, uint32_t allowance)
{
    return report(store_abort((struct flash){ image, image_length, size, units }, allowance));
}

/* The reads change no byte; the second program's flash has no second type for that. */
us_report us_read(const uint8_t *image, size_t image_length, uint32_t size, uint32_t units, uint32_t file)
{
    return report(store_read((struct flash){ (uint8_t *)(uintptr_t)image, image_length, size, units }, file));
}

us_report us_read_open(const uint8_t *image, size_t image_length, uint32_t size, uint32_t units, uint32_t file)
{
    return report(store_read_transaction((struct flash){ (uint8_t *)(uintptr_t)image, image_length, size, units }, file));
}

us_report us_read_at(const uint8_t *image, size_t image_length, uint32_t size, uint32_t units, size_t unit, size_t position)
{
    return report(store_read_handle((struct flash){ (uint8_t *)(uintptr_t)image, image_length, size, units },
                                    (struct handle){ (uint32_t)unit, (uint32_t)position }));
}

us_pass us_give(uint8_t *image, size_t image_length, uint32_t size, uint32_t units, uint32_t first, uint32_t second, uint32_t allowance)
{
    struct pass_answer p = passes_give((struct flash){ image, image_length, size, units }, first, second, allowance);
    return (us_pass){ p.number, p.steps, p.pass };
}

us_staff_list us_staff(const uint8_t *image, size_t image_length, uint32_t size, uint32_t units)
{
    struct staff_answer s = passes_staff((struct flash){ (uint8_t *)(uintptr_t)image, image_length, size, units });
    return (us_staff_list){ s.number, s.night, s.zone, s.people };
}

us_pass_count us_register(const uint8_t *image, size_t image_length, uint32_t size, uint32_t units)
{
    struct register_answer r = passes_register((struct flash){ (uint8_t *)(uintptr_t)image, image_length, size, units });
    return (us_pass_count){ r.number, r.count };
}
