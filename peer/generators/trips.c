#include "trips.h"

#include "../checks/calls.h"
#include "../checks/harm.h"
#include "../checks/known.h"
#include "../checks/random.h"

static uint32_t least(uint32_t a, uint32_t b)
{
    return a < b ? a : b;
}

/* What is a small number, or nothing, where only the low bits are looked at. */
static uint32_t high_bit(void)
{
    static const uint32_t bits[] = { 1u << 8, 1u << 16, 1u << 24, 1u << 31 };
    return bits[random_below(4)];
}

/* Mostly more than enough, now and then exactly enough. */
static uint32_t enough(const struct plan *p)
{
    switch (random_below(5)) {
    case 0: return p->steps;
    case 1: return UINT32_MAX;
    case 2: return random_chance(50) ? 1u << 16 : 1u << 31;
    default: return PLENTY;
    }
}

/* The first steps, the last ones, those around an erase and the flag changes beside it, or any. */
static uint32_t random_stop(const struct plan *p)
{
    uint32_t turn = random_below(p->erase > 0 ? 10 : 6);
    if (turn < 2)
        return random_below(least(p->steps, 6) + 1);
    if (turn < 4)
        return p->steps - random_below(least(p->steps, 4) + 1);
    if (turn < 6)
        return random_below(p->steps + 1);
    return least(p->steps, p->erase - least(p->erase, 4) + random_below(11));
}

uint32_t random_allowance(const struct plan *p)
{
    return random_chance(50) ? enough(p) : random_stop(p);
}

static struct handle far_handle(struct handle at)
{
    if (random_chance(50))
        at.unit += high_bit();
    else
        at.position += high_bit();
    return at;
}

/* Around what stands: positions at n, units at U - 2, and numbers far over both. */
static struct handle random_handle(void)
{
    struct store s;
    const struct flash *f = &scene.flash;
    if (random_chance(10) || store_decode(f, &s) != DONE)
        return (struct handle){ random_chance(50) ? random_below(3) : UINT32_MAX - random_below(2), random_below(600) };
    if (random_chance(40)) {
        uint32_t file = random_below(MAX_FILE + 1);
        for (uint32_t i = 0; i <= MAX_FILE; i++, file = (file + 1) % (MAX_FILE + 1))
            if (s.current[file].count > 0)
                return random_chance(80) ? s.current[file].at : far_handle(s.current[file].at);
    }
    uint32_t unit = random_below(f->units - 1);
    uint32_t n = s.home[unit].array.n;
    switch (random_below(6)) {
    case 0: return (struct handle){ f->units - 2 + random_below(3), random_below(2) };
    case 1: return (struct handle){ unit, n + random_below(2) };
    case 2: return (struct handle){ unit, n > 0 ? n - 1 : 0 };
    case 3: return (struct handle){ unit, UINT32_MAX - random_below(600) };
    case 4: return (struct handle){ unit, random_below(f->unit_size / DESCRIPTOR_SIZE + 1) };
    default: return (struct handle){ unit, random_below(n + 1) };
    }
}

static uint32_t random_file(void)
{
    struct store s;
    uint32_t turn = random_below(10);
    uint32_t file = random_below(MAX_FILE + 1);
    if (turn < 5 && store_decode(&scene.flash, &s) == DONE)
        for (uint32_t i = 0; i <= MAX_FILE; i++, file = (file + 1) % (MAX_FILE + 1))
            if (s.current[file].count + s.pending[file].count > 0)
                return random_chance(85) ? file : file + high_bit();
    if (turn < 8)
        return file;
    return turn < 9 ? random_between(MAX_FILE, MAX_FILE + 2) : UINT32_MAX - random_below(2);
}

static uint32_t random_length(void)
{
    uint32_t turn = random_below(10);
    if (turn < 5)
        return random_below(MAX_CONTENT + 1);
    if (turn < 8)
        return random_between(MAX_CONTENT, MAX_CONTENT + 2);
    return turn < 9 ? 0 : random_between(MAX_CONTENT + 1, MAX_CALL_CONTENT);
}

static void random_side_call(struct call *c)
{
    random_call(c, 3);
    c->file = random_file();
    c->at = random_handle();
    c->length = 0;
    if (c->kind == CALL_WRITE)
        random_content_of(c, random_length());
}

/* A call that changes the image is made without a step, so that the history goes on as it was. */
void trip_side_calls(uint32_t many)
{
    static struct call c;
    for (uint32_t i = 0; i < many; i++) {
        random_side_call(&c);
        struct plan p = plan_call(&c);
        bool changes = p.number == DONE && p.steps > 0;
        if (changes && random_chance(80))
            c.kind = (enum call_kind)random_between(CALL_READ, CALL_READAT);
        emit_call(&c, changes ? 0 : random_chance(50) ? random_below(8) : PLENTY);
    }
}

static void random_harm(struct bench *b)
{
    uint32_t turn = random_below(100);
    if (turn < 30)
        harm(b);
    else if (turn < 42)
        harm_home(b);
    else if (turn < 58)
        harm_bound(b);
    else if (turn < 70)
        harm_gap(b);
    else if (turn < 76)
        harm_edge(b);
    else if (turn < 80)
        harm_overlap(b);
    else if (turn < 92)
        harm_copy(b);
    else
        make_not_sound(b);
}

/* Mostly what the image calls for: a mount where it is sound, a format where it is not. */
static void call_on_damaged(void)
{
    static struct call c;
    struct store s;
    random_side_call(&c);
    enum group g = judge(&scene.flash, &s);
    if (g == GROUP_NOT_SOUND) {
        c.kind = random_chance(20) ? CALL_FORMAT : c.kind;
    } else if (g != GROUP_SETTLED) {
        c.kind = random_chance(70) ? CALL_MOUNT : c.kind;
    } else if (random_chance(50)) {
        c.kind = s.open.count == 0 ? CALL_BEGIN : random_chance(30) ? CALL_COMMIT : CALL_WRITE;
        if (c.kind == CALL_WRITE)
            random_content_of(&c, random_below(MAX_CONTENT + 1));
    }
    struct plan p = plan_call(&c);
    emit_call(&c, p.number == DONE ? random_allowance(&p) : random_below(100));
}

void trip_damage(void)
{
    static struct bench b;
    emit_keep();
    for (uint32_t turns = random_between(1, 2); turns > 0; turns--) {
        bench_copy(&b, &scene);
        for (uint32_t i = random_chance(75) ? 1 : 2; i > 0; i--)
            random_harm(&b);
        emit_image(&b, true);
        emit_judge();
        for (uint32_t i = random_between(3, 8); i > 0; i--)
            call_on_damaged();
        if (random_chance(20))
            emit_list();
    }
    emit_back();
}

static void one_stop(const struct call *c, uint32_t allowance)
{
    static const struct call mount = { .kind = CALL_MOUNT };
    emit_back();
    emit_call(c, allowance);
    if (random_chance(30))
        emit_judge();
    if (random_chance(15))
        trip_side_calls(1);
    if (random_chance(60)) {
        struct plan p = plan_call(&mount);
        emit_call(&mount, random_allowance(&p));
    }
    if (random_chance(5))
        emit_list();
}

void trip_stops(const struct call *c)
{
    struct plan p = plan_call(c);
    if (p.number != DONE)
        return;
    emit_keep();
    if (p.steps <= 16)
        for (uint32_t k = 0; k <= p.steps; k++)
            one_stop(c, k);
    else
        for (uint32_t i = 0; i < 12; i++)
            one_stop(c, random_stop(&p));
    emit_back();
}

void trip_length(void)
{
    uint32_t length = (uint32_t)scene.flash.length;
    uint32_t others[] = {
        length - 1,          length - 2, length + 1, length + 2, 0, 1, length + scene.flash.unit_size, length - scene.flash.unit_size,
        random_below(65601), 65600
    };
    uint32_t other = others[random_below(10)];
    emit_keep();
    emit_size(other <= 65600 ? other : 65600);
    emit_judge();
    trip_side_calls(random_between(1, 3));
    emit_list();
    if (random_chance(30)) {
        emit_size(length);
        trip_side_calls(2);
    }
    emit_back();
}

void trip_geometry(void)
{
    static const uint32_t pairs[][2] = { { 0, 0 },
                                         { 0, 3 },
                                         { 3, 0 },
                                         { 512, 0 },
                                         { 512, 1 },
                                         { 512, 2 },
                                         { 512, 65 },
                                         { 512, 128 },
                                         { 1024, 2 },
                                         { 1024, 64 },
                                         { 1024, 65 },
                                         { 2048, 2 },
                                         { 2048, 32 },
                                         { 2048, 33 },
                                         { 4096, 2 },
                                         { 4096, 16 },
                                         { 4096, 17 },
                                         { 256, 3 },
                                         { 256, 6 },
                                         { 511, 3 },
                                         { 513, 3 },
                                         { 514, 4 },
                                         { 768, 4 },
                                         { 1536, 3 },
                                         { 3072, 3 },
                                         { 8192, 3 },
                                         { 8192, 8 },
                                         { 16384, 4 },
                                         { 21845, 3 },
                                         { 65536, 1 },
                                         { 1, 3 },
                                         { 512, 64 },
                                         { 512, 8388611 },
                                         { 1024, 4194307 },
                                         { 4096, 1048579 },
                                         { 4294967295, 3 },
                                         { 512, 4294967295 },
                                         { 4294967295, 4294967295 },
                                         { 2147483648, 2 },
                                         { 65536, 65536 },
                                         { 512, 3 } };
    static const struct call format = { .kind = CALL_FORMAT };
    uint32_t i = random_below(sizeof pairs / sizeof pairs[0]);
    if (random_chance(30)) { /* the product is right in 32 bits */
        uint32_t unit_size = UINT32_C(512) << random_below(4);
        uint32_t units = random_between(3, 16);
        emit_new(unit_size, (uint32_t)((UINT64_C(1) << 32) / unit_size) + units);
        emit_size(unit_size * units);
    } else {
        emit_new(pairs[i][0], pairs[i][1]);
    }
    if (random_chance(30))
        emit_size(random_chance(60) ? 1536 : random_below(4097));
    emit_judge();
    emit_call(&format, random_chance(50) ? random_below(300) : PLENTY);
    trip_side_calls(random_between(2, 6));
    emit_list();
}

void trip_wrong_lines(void)
{
    static const char *const lines[] = { "",
                                         " ",
                                         "judge ",
                                         " judge",
                                         "judge 1",
                                         "list list",
                                         "List",
                                         "new 512",
                                         "new 512 3 3",
                                         "new  512 3",
                                         "new -512 3",
                                         "new 512 4294967296",
                                         "size 65601",
                                         "size",
                                         "put 70000 0",
                                         "put 4294967295 0",
                                         "put 0 256",
                                         "put 0",
                                         "format",
                                         "format x",
                                         "format 4294967296",
                                         "format +1",
                                         "format 0x1",
                                         "mount 1 1",
                                         "begin 18446744073709551616",
                                         "begin-lowest",
                                         "begin-lowest 1 1",
                                         "begin-Lowest 1",
                                         "beginlowest 1",
                                         "write-lowest 1 -",
                                         "write-lowest 1 0 9",
                                         "delete-lowest 1",
                                         "delete-lowest 1 - 9",
                                         "mount-lowest 9",
                                         "commit-lowest 9",
                                         "write 1 00",
                                         "write 1 0 9",
                                         "write 1 000 9",
                                         "write 1 AB 9",
                                         "write 1 0g 9",
                                         "write 1 -- 9",
                                         "write - - 9",
                                         "write 1  9",
                                         "write 1 - 9 9",
                                         "delete 1",
                                         "delete 1 -1",
                                         "read",
                                         "read 1 2",
                                         "readtx",
                                         "readtx -",
                                         "readat 0",
                                         "readat 0:0",
                                         "readat 0 0 0",
                                         "keep 1",
                                         "back back",
                                         "\xFF\xFE",
                                         "judge\r",
                                         "unit=512" };
    for (uint32_t i = random_between(1, 3); i > 0; i--)
        emit_wrong(lines[random_below(sizeof lines / sizeof lines[0])]);
}
