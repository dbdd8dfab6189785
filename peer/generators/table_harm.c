#include "../checks/harm.h"
#include "../checks/random.h"
#include "table_trips.h"

/* One entry becomes another. */
static void harm_entry(struct table *t, uint32_t file)
{
    struct table_entry *e = &t->entry[file];
    uint32_t turn = random_below(14);
    static const uint8_t states[] = { 0, 1, 2, 3, 254, 255 };
    switch (turn) {
    case 0:
    case 1: e->state = states[random_below(6)]; break;
    case 2: e->unit++; break;
    case 3: e->unit = (uint8_t)(scene.flash.units - random_between(1, 3)); break;
    case 4: e->unit = (uint8_t)random_below(256); break;
    case 5: e->position++; break;
    case 6: e->position--; break;
    case 7: e->position = (uint16_t)random_below(65536); break;
    case 8: e->length++; break;
    case 9: e->length--; break;
    case 10: e->length = (uint16_t)(random_chance(50) ? random_between(255, 258) : random_below(65536)); break;
    case 11: *e = t->entry[any_file() % TABLE_ENTRIES]; break;
    case 12:
        e->state = ENTRY_FILE;
        e->unit = (uint8_t)random_below(3);
        e->position = (uint16_t)random_below(6);
        break;
    default:
        e->state = ENTRY_NO_FILE;
        e->length = (uint16_t)random_below(2);
        break;
    }
}

/* A file that the table knows, if there is one. */
static uint32_t known_file(void)
{
    uint32_t file = habit_file();
    for (uint32_t i = 0; i <= MAX_FILE; i++, file = (file + 1) % (MAX_FILE + 1))
        if (beside.entry[file].state == ENTRY_FILE)
            return file;
    return file;
}

void trip_table_damage(void)
{
    table_keep();
    image_keep();
    for (uint32_t turns = random_between(1, 3); turns > 0; turns--) {
        static struct table t;
        t = beside;
        uint32_t file = random_chance(20) ? 0 : random_chance(70) ? known_file() : habit_file();
        harm_entry(&t, file);
        if (random_chance(10))
            harm_entry(&t, 0);
        table_become(&t);
        read_file(file);
        if (random_chance(30))
            table_look_at(file);
        read_some(2);
        for (uint32_t i = random_below(4); i > 0; i--)
            random_chance(50) ? random_through() : step_on(true);
    }
    if (random_chance(30))
        table_look();
    image_back();
    table_back();
}

static void random_harm(struct bench *b)
{
    static void (*const harms[])(struct bench *) = { harm,     harm,      harm_home,    harm_home, harm_bound,
                                                     harm_gap, harm_edge, harm_overlap, harm_copy, harm_by_move };
    harms[random_below(10)](b);
}

/* The unit that a logical number is on, of a settled image. */
static uint32_t home_of(const struct bench *b, uint32_t logical)
{
    struct store s;
    return store_decode(&b->flash, &s) == DONE && logical + 1 < b->flash.units ? s.home[logical].unit : 0;
}

/* What the table says of a file is at its place, but the sector lies where none may: odd, in the array, past the unit's end. */
static void move_sector(struct bench *b, uint32_t file)
{
    struct table_entry e = beside.entry[file];
    uint32_t unit = home_of(b, e.unit);
    uint32_t size = b->flash.unit_size;
    uint32_t array_end = HEADER_SIZE + DESCRIPTOR_SIZE * unit_array(&b->flash, unit).n;
    uint32_t at = unit_descriptor_address(&b->flash, unit, e.position);
    const uint32_t offsets[] = {
        array_end - 2, array_end, array_end + 1, size - even_size(e.length) + 2, size - even_size(e.length), size - even_size(e.length) - 1,
        size,          0,         65534
    };
    if (HEADER_SIZE + DESCRIPTOR_SIZE * (e.position + 1u) <= size)
        bench_put_word(b, at + AT_OFFSET, (uint16_t)offsets[random_below(9)]);
}

/* Something like a descriptor of the file past the end of the array, in the gap or in another file's content; and an entry that names
 * it. */
static void imitate(struct bench *b, struct table *t, uint32_t file)
{
    uint32_t unit = home_of(b, t->entry[file].unit);
    uint32_t n = unit_array(&b->flash, unit).n;
    uint32_t position = random_between(n, (b->flash.unit_size - HEADER_SIZE) / DESCRIPTOR_SIZE - 1);
    uint16_t length = (uint16_t)random_below(12);
    struct descriptor d = { FLAGS_CURRENT, (uint16_t)(b->flash.unit_size - even_size(length)), length, (uint16_t)(TAG_DATA + file) };
    bench_put_descriptor(b, unit, position, d);
    t->entry[file] = (struct table_entry){ ENTRY_FILE, t->entry[file].unit, (uint16_t)position, length };
}

/* Current data of the file at its place with a length at the limit or over it, which the entry has too; the sector has room. */
static void lengthen(struct bench *b, struct table *t, uint32_t file)
{
    struct table_entry *e = &t->entry[file];
    uint32_t unit = home_of(b, e->unit);
    uint32_t at = unit_descriptor_address(&b->flash, unit, e->position);
    uint32_t size = b->flash.unit_size;
    if (HEADER_SIZE + DESCRIPTOR_SIZE * (e->position + 1u) > size)
        return;
    e->length = (uint16_t)random_between(255, 259);
    bench_put_word(b, at + AT_LENGTH, e->length);
    bench_put_word(b, at + AT_OFFSET, (uint16_t)(size - even_size(e->length)));
}

/* Harm at the very place that the table names. */
static void harm_named(struct bench *b)
{
    static struct table t;
    uint32_t file = known_file();
    t = beside;
    if (!table_usable(&beside) || !flash_geometry_ok(&b->flash))
        return;
    switch (random_below(5)) {
    case 0: lengthen(b, &t, file); break;
    case 1:
    case 2: move_sector(b, file); break;
    default: imitate(b, &t, file); break;
    }
    image_become(b);
    table_become(&t);
    read_file(file);
}

void trip_image(void)
{
    static struct bench b;
    uint32_t length = (uint32_t)scene.flash.length;
    image_keep();
    table_keep();
    if (random_chance(15)) {
        image_size(random_chance(50) ? length - 1 : length + scene.flash.unit_size > 65600 ? 65600 : length + scene.flash.unit_size);
    } else {
        for (uint32_t i = random_between(1, 3); i > 0; i--) {
            bench_copy(&b, &scene);
            if (random_chance(40))
                harm_named(&b);
            else
                random_harm(&b);
            image_become(&b);
            read_file(known_file());
            read_some(3);
        }
        emit_judge();
    }
    for (uint32_t i = random_between(1, 4); i > 0; i--)
        random_through();
    if (random_chance(20))
        through_fill();
    read_some(2);
    image_back();
    table_back();
}
