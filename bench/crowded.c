#include "crowded.h"

#include <string.h>

#include "../peer/checks/random.h"
#include "../peer/generators/compose.h"

/* The sectors are old ones: this one becomes the file's current one. */
static void make_current(struct bench *b, uint32_t unit, uint32_t position, uint32_t file)
{
    struct descriptor d = unit_descriptor(&b->flash, unit, position);
    d.flags = FLAGS_CURRENT;
    d.tag = (uint16_t)(TAG_DATA + file);
    bench_put_descriptor(b, unit, position, d);
}

void crowded_make(uint8_t *bytes, uint32_t size, uint32_t units, uint32_t files)
{
    static struct bench b;
    random_seed(1);
    compose_crowded(&b, size, units);
    for (uint32_t file = 0, unit = 0; file < files; unit = (unit + 1) % units) {
        struct array a = unit_array(&b.flash, unit);
        if (a.n == 0)
            continue;
        make_current(&b, unit, (7 + 31 * file) % a.n, file);
        file++;
    }
    memcpy(bytes, b.image, b.flash.length);
}
