#include "table_trips.h"

#include "../checks/calls.h"
#include "../checks/random.h"
#include "trips.h"

/* What a history uses: few files, so that they are rewritten. */
static struct {
    uint32_t first_file, files, longest;
} habit;

void choose_habit(void)
{
    habit.first_file = random_chance(40) ? 0 : random_below(MAX_FILE + 1);
    habit.files = random_chance(80) ? random_between(1, 6) : random_between(1, 40);
    habit.longest = random_chance(40) ? 12 : MAX_CONTENT;
}

uint32_t habit_file(void)
{
    return (habit.first_file + random_below(habit.files)) % (MAX_FILE + 1);
}

uint32_t any_file(void)
{
    uint32_t turn = random_below(20);
    if (turn < 13)
        return habit_file();
    if (turn < 15)
        return random_below(2);
    if (turn < 18)
        return random_below(MAX_FILE + 1);
    if (turn < 19)
        return random_between(MAX_FILE, MAX_FILE + 2);
    uint32_t high = UINT32_C(1) << random_between(8, 31);
    return habit_file() + high;
}

/* Now and then what would be a current file's descriptors, if it were read as such. */
static void choose_content(struct call *c)
{
    const uint8_t words[] = { 0xF8, 0xFF, 0xF0, 0x01, 0x02, 0x00, (uint8_t)habit_file(), 0x10 };
    random_content_of(c, random_chance(12) ? 0 : random_below(habit.longest + 1));
    for (uint32_t i = 0; i < c->length && habit.files % 5 == 0; i++)
        c->content[i] = words[i % 8];
}

void choose_call(struct call *c)
{
    struct store s;
    uint32_t first = store_decode(&scene.flash, &s);
    uint32_t turn = random_below(100);
    *c = (struct call){ .kind = CALL_BEGIN, .file = habit_file() };
    if (first == UNSETTLED)
        c->kind = CALL_MOUNT;
    else if (first != DONE)
        c->kind = CALL_FORMAT;
    else if (s.open.count > 0)
        c->kind = turn < 55 ? CALL_WRITE : turn < 66 ? CALL_DELETE : turn < 90 ? CALL_COMMIT : turn < 97 ? CALL_ABORT : CALL_MOUNT;
    if (c->kind == CALL_WRITE)
        choose_content(c);
}

void read_file(uint32_t file)
{
    struct call c = { .kind = CALL_READ, .file = file };
    through(&c, 0);
}

void read_some(uint32_t most)
{
    for (uint32_t i = random_between(1, most); i > 0; i--)
        read_file(any_file());
}

static uint32_t allowance_of(const struct plan *p, uint32_t whole_in_hundred)
{
    if (p->number != DONE)
        return random_below(50);
    if (random_chance(whole_in_hundred))
        return random_chance(50) ? PLENTY : p->steps;
    return random_chance(25) ? 0 : random_allowance(p);
}

void step_on(bool through_table)
{
    static struct call c;
    choose_call(&c);
    struct plan p = plan_call(&c);
    if (through_table && !table_usable(&beside) && c.kind > CALL_MOUNT && random_chance(80)) {
        if (random_chance(70))
            through_fill();
        else
            through(&(struct call){ .kind = CALL_MOUNT }, PLENTY);
        return;
    }
    uint32_t allowance = allowance_of(&p, 80);
    if (through_table)
        through(&c, allowance);
    else
        image_call(&c, allowance);
}

void random_through(void)
{
    static struct call c;
    if (random_chance(10)) {
        through_fill();
        return;
    }
    c = (struct call){ .kind = (enum call_kind)random_between(CALL_MOUNT, CALL_READ) };
    c.file = any_file();
    if (c.kind == CALL_WRITE)
        random_content_of(&c, random_chance(20) ? random_between(MAX_CONTENT, MAX_CONTENT + 2) : random_below(40));
    through(&c, random_chance(50) ? random_below(4) : PLENTY);
}

/* What follows a stop: reads, a mount or a fill, whole or stopped, or a call that is refused. */
static void after_stop(void)
{
    static const struct call mount = { .kind = CALL_MOUNT };
    if (random_chance(60))
        read_some(2);
    if (random_chance(20))
        random_through();
    if (random_chance(25))
        through_fill();
    if (random_chance(60)) {
        struct plan p = plan_call(&mount);
        through(&mount, allowance_of(&p, 65));
    }
    if (random_chance(40))
        read_some(2);
    if (random_chance(5))
        table_look();
}

static void one_stop(const struct call *c, uint32_t allowance)
{
    image_back();
    table_back();
    through(c, allowance);
    after_stop();
}

void trip_table_stops(const struct call *c)
{
    struct plan p = plan_call(c);
    if (p.number != DONE)
        return;
    image_keep();
    table_keep();
    if (p.steps <= 12)
        for (uint32_t k = 0; k <= p.steps; k++)
            one_stop(c, k);
    else
        for (uint32_t i = 0; i < 8; i++)
            one_stop(c, i == 0 ? 0 : allowance_of(&p, 0));
    image_back();
    table_back();
}

void trip_table_length(void)
{
    static const uint32_t lengths[] = { 255, 257, 0, 1, 128, 300, 254, 258, 2, 299 };
    uint32_t length = lengths[random_below(10)];
    table_keep();
    table_size(random_chance(70) ? lengths[random_below(2)] : length);
    for (uint32_t i = random_between(2, 6); i > 0; i--)
        random_through();
    if (random_chance(50))
        through(&(struct call){ .kind = CALL_FORMAT }, random_chance(50) ? 0 : PLENTY);
    read_some(2);
    if (random_chance(30))
        table_look();
    if (random_chance(20))
        table_look_at(random_between(254, 257));
    if (random_chance(50)) {
        table_size(TABLE_ENTRIES);
        read_some(3);
        random_through();
        image_keep();
        step_on(true);
        image_back();
    }
    table_back();
}

void trip_apart(void)
{
    bool older_table = random_chance(60);
    bool with = random_chance(60);
    image_keep();
    table_keep();
    for (uint32_t i = random_between(1, 12); i > 0; i--)
        step_on(with);
    if (older_table)
        table_back();
    else
        image_back();
    read_some(4);
    for (uint32_t i = random_below(4); i > 0; i--)
        random_chance(30) ? random_through() : step_on(true);
    read_some(3);
    if (random_chance(50)) {
        through_fill();
        read_some(3);
    }
    image_back();
    table_back();
}

void trip_table_wrong_lines(void)
{
    static const char *const lines[] = { "tformat",
                                         "tmount",
                                         "tmount 1 1",
                                         "tbegin x",
                                         "tcommit -1",
                                         "tabort 4294967296",
                                         "twrite 1 00",
                                         "twrite 1 0 9",
                                         "twrite 1 AB 9",
                                         "tdelete 1",
                                         "tfill 1",
                                         "tread",
                                         "tread 1 1",
                                         "treadtx 1",
                                         "treadat 0 0",
                                         "tsize 301",
                                         "tsize",
                                         "tput 1204 0",
                                         "tput 0 256",
                                         "tput 1 256",
                                         "tput 2 65536",
                                         "tput 3 65536",
                                         "tput 4294967295 0",
                                         "tput 0",
                                         "tkeep 1",
                                         "tback 1",
                                         "tshow 0",
                                         "tentry",
                                         "tentry 301",
                                         "tentry 4294967295",
                                         "Tfill",
                                         " tfill",
                                         "tlist",
                                         "tjudge",
                                         "t" };
    for (uint32_t i = random_between(1, 3); i > 0; i--)
        emit_wrong(lines[random_below(sizeof lines / sizeof lines[0])]);
}
