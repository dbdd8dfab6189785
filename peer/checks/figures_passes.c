/* Pass lists and manual passes: the figures P1 to P5, lists and registers that are none, and the order of the refusals. */
#include "figures.h"

#include <string.h>

#include "../store/passes.h"
#include "figures_common.h"

static const char list[] = "night=14\nzone=3\npeople=3\nperson=5\nperson=9\nperson=65535\n";
static const char pass_0[] = "pass=0\nfirst=5\nsecond=9\n";
static const char pass_1[] = "pass=1\nfirst=65535\nsecond=9\n";

static void put_file(struct bench *b, uint32_t file, const char *text)
{
    store_begin(b->flash, PLENTY);
    check(store_write(b->flash, file, (const uint8_t *)text, (uint32_t)strlen(text), PLENTY).number == DONE, "a file is written");
    store_commit(b->flash, PLENTY);
}

static void with_list(struct bench *b)
{
    bench_formatted(b, 512, 3);
    put_file(b, 0, list);
}

static bool gives(struct bench *b, uint32_t first, uint32_t second, uint32_t allowance, uint32_t number, uint32_t steps, uint32_t pass)
{
    struct pass_answer a = passes_give(b->flash, first, second, allowance);
    return a.number == number && a.steps == steps && a.pass == pass;
}

static bool counts(struct bench *b, uint32_t number, uint32_t count)
{
    struct register_answer a = passes_register(b->flash);
    return a.number == number && a.count == count;
}

static bool lists(struct bench *b, uint32_t number, uint32_t night, uint32_t zone, uint32_t people)
{
    struct staff_answer a = passes_staff(b->flash);
    return a.number == number && a.night == night && a.zone == zone && a.people == people;
}

static bool shows(struct bench *b, uint32_t file, const char *text, uint32_t position)
{
    struct answer a = store_read(b->flash, file);
    return answer_content_is(b, a, text, (uint32_t)strlen(text)) && a.at.unit == 0 && a.at.position == position;
}

static void two_passes(void)
{
    struct bench b;
    with_list(&b);
    check(lists(&b, DONE, 14, 3, 3) && counts(&b, DONE, 0), "P: the list, and no register");
    check(gives(&b, 5, 9, PLENTY, DONE, 35, 0), "P1: 35 steps, pass 0");
    check(shows(&b, 2, pass_0, 3) && shows(&b, 1, "count=1\n", 4), "P1: pass at 0:3, register at 0:4");
    check(gives(&b, 65535, 9, PLENTY, DONE, 38, 1), "P2: 38 steps, pass 1");
    check(shows(&b, 3, pass_1, 6) && shows(&b, 1, "count=2\n", 7), "P2: pass at 0:6, register at 0:7");
}

static void cut(uint32_t allowance, bool open, uint32_t mounts, uint32_t count)
{
    struct bench b;
    with_list(&b);
    check(gives(&b, 5, 9, allowance, STOPPED, allowance, 0), "P3: stopped");
    if (open)
        check(store_read_transaction(b.flash, 0).number == DONE && counts(&b, DONE, 0), "P3: settled and open");
    check(answer_is(store_mount(b.flash, PLENTY), DONE, mounts, 0, 0), "P3: the mount's steps");
    check(counts(&b, DONE, count), "P3: the register");
    check(count ? shows(&b, 2, pass_0, 3) : answer_refuses(store_read(b.flash, 2), ABSENT), "P3: the pass");
}

/* The whole of P1 stopped everywhere and mounted: both hold, or neither. */
static void cut_everywhere(void)
{
    struct bench b;
    for (uint32_t k = 0; k < 35; k++) {
        with_list(&b);
        check(gives(&b, 5, 9, k, STOPPED, k, 0), "P3: stopped anywhere");
        store_mount(b.flash, PLENTY);
        check(counts(&b, DONE, k > 31) && (store_read(b.flash, 2).number == DONE) == (k > 31), "P3: both or neither");
    }
}

static void full_store(void)
{
    static const uint32_t lengths[] = { 256, 256, 224, 104 };
    struct bench full, b;
    with_list(&full);
    store_begin(full.flash, PLENTY);
    for (uint32_t i = 0; i < 4; i++)
        check(store_write(full.flash, 200 + i, zeros, lengths[i], PLENTY).number == DONE, "P4: a file is written");
    store_commit(full.flash, PLENTY);
    bench_copy(&b, &full);
    check(gives(&b, 5, 9, PLENTY, NO_ROOM, 24, 0), "P4: 10 with 24 steps");
    check(store_judge(b.flash) == JUDGED_SETTLED && store_read_transaction(b.flash, 0).number == NO_TRANSACTION, "P4: settled, none open");
    check(counts(&b, DONE, 0) && store_read(b.flash, 2).number == ABSENT, "P4: the files as before");
    for (uint32_t k = 0; k <= 24; k++) {
        bench_copy(&b, &full);
        check(k < 24 ? gives(&b, 5, 9, k, STOPPED, k, 0) : gives(&b, 5, 9, k, NO_ROOM, 24, 0), "P4: STOPPED below 24");
    }
}

static void registers(void)
{
    static const char *const bad[] = { "",
                                       "count=127\n",
                                       "count=128\n",
                                       "count=00\n",
                                       "count=01\n",
                                       "count=1",
                                       "count=1\n\n",
                                       "count=\n",
                                       "count=-1\n",
                                       "count= 1\n",
                                       "count=1\r\n",
                                       "Count=1\n",
                                       "count=1 \n",
                                       "count=999\n",
                                       "count=1\nx=1\n",
                                       "count=4294967297\n",
                                       "count=18446744073709551617\n" };
    struct bench b;
    with_list(&b);
    put_file(&b, 1, "count=125\n");
    check(gives(&b, 5, 9, PLENTY, DONE, 38, 125), "P5: pass 125");
    check(shows(&b, 127, "pass=125\nfirst=5\nsecond=9\n", 5) && counts(&b, DONE, 126), "P5: in file 127");
    check(gives(&b, 5, 9, PLENTY, REGISTER_FULL, 0, 0), "P5: then 25");
    for (size_t i = 0; i < sizeof bad / sizeof bad[0]; i++) {
        with_list(&b);
        put_file(&b, 1, bad[i]);
        check(counts(&b, BAD_REGISTER, 0) && gives(&b, 5, 9, PLENTY, BAD_REGISTER, 0, 0), "P5: 24");
    }
    with_list(&b);
    put_file(&b, 1, "count=0\n");
    check(counts(&b, DONE, 0) && gives(&b, 5, 9, PLENTY, DONE, 36, 0), "a written count of 0 is 0");
}

static void one_list(const char *text, uint32_t number)
{
    struct bench b;
    bench_formatted(&b, 512, 3);
    put_file(&b, 0, text);
    check(passes_staff(b.flash).number == number, text);
    check(gives(&b, 5, 5, PLENTY, number == DONE ? SAME_PERSON : number, 0, 0), text);
}

static void other_lists(void)
{
    static const char *const none[] = { "night=0\nzone=0\npeople=0\n", "night=999\nzone=999\npeople=0\n" };
    static const char *const bad[] = { "",
                                       "\n",
                                       "night=14\nzone=3\npeople=1\nperson=5",
                                       "night=14\nzone=3\npeople=1\nperson=5\n\n",
                                       "night=14\nzone=3\npeople=0\nperson=5\n",
                                       "night=14\nzone=3\npeople=2\nperson=5\n",
                                       "night=14\nzone=3\npeople=1\nperson=5\nperson=6\n",
                                       "night=14\nzone=3\npeople=2\nperson=5\nperson=5\n",
                                       "night=14\nzone=3\npeople=2\nperson=6\nperson=5\n",
                                       "night=14\nzone=3\npeople=1\nperson=0\n",
                                       "night=14\nzone=3\npeople=1\nperson=65536\n",
                                       "night=1000\nzone=3\npeople=1\nperson=5\n",
                                       "night=14\nzone=1000\npeople=1\nperson=5\n",
                                       "night=1000\nzone=3\npeople=0\n",
                                       "night=014\nzone=3\npeople=1\nperson=5\n",
                                       "night=14\nzone=3\npeople=01\nperson=5\n",
                                       "night=14\nzone=3\npeople=1\nperson=05\n",
                                       "night=14\nzone=3\npeople=00\n",
                                       "zone=3\nnight=14\npeople=1\nperson=5\n",
                                       "night=14\r\nzone=3\npeople=1\nperson=5\n",
                                       "night=+1\nzone=3\npeople=1\nperson=5\n",
                                       "night=14 \nzone=3\npeople=1\nperson=5\n",
                                       "Night=14\nzone=3\npeople=1\nperson=5\n",
                                       "night=14\nzone=3\npeople=1\nperson=4294967301\n",
                                       "night=14\nzone=3\npeople=1\nperson=5\nx" };
    char many[MAX_CONTENT + 1] = "night=14\nzone=3\npeople=16\n";
    for (size_t i = 0; i < 2; i++)
        one_list(none[i], NO_LIST);
    for (size_t i = 0; i < sizeof bad / sizeof bad[0]; i++)
        one_list(bad[i], BAD_LIST);
    one_list("night=0\nzone=0\npeople=1\nperson=5\n", DONE);
    strcat(many, "person=5\n");
    for (char two[] = "person=10\n"; two[8] <= '9'; two[8]++)
        strcat(many, two);
    strcat(many, "person=20\nperson=30\nperson=40\nperson=50\nperson=65535\n");
    one_list(many, DONE);
    memcpy(strstr(many, "16"), "17", 2);
    strcpy(strstr(many, "person=65535"), "person=60\nperson=65535\n");
    one_list(many, BAD_LIST);
}

static void order_of_refusals(void)
{
    struct bench b;
    bench_formatted(&b, 512, 3);
    check(lists(&b, NO_LIST, 0, 0, 0) && gives(&b, 5, 9, PLENTY, NO_LIST, 0, 0), "no list");
    put_file(&b, 1, "");
    check(gives(&b, 0, 0, PLENTY, NO_LIST, 0, 0), "no list before the register");
    put_file(&b, 0, list);
    check(gives(&b, 6, 6, PLENTY, NOT_ON_LIST, 0, 0), "22 before 23");
    check(gives(&b, 5, 65536 + 9, PLENTY, NOT_ON_LIST, 0, 0), "a person over 65,535");
    check(gives(&b, 9, 9, PLENTY, SAME_PERSON, 0, 0), "23 before 24");
    check(gives(&b, 9, 5, PLENTY, BAD_REGISTER, 0, 0), "24");
    store_begin(b.flash, PLENTY);
    check(gives(&b, 6, 6, PLENTY, OPEN, 0, 0) && lists(&b, DONE, 14, 3, 3), "8 before 22; the looks go on");
    check(store_begin(b.flash, PLENTY).number == OPEN, "it is open still");
    b.flash.units = 2;
    check(gives(&b, 5, 9, PLENTY, BAD_GEOMETRY, 0, 0) && lists(&b, BAD_GEOMETRY, 0, 0, 0) && counts(&b, BAD_GEOMETRY, 0), "2");
}

void figures_of_passes(void)
{
    two_passes();
    cut(31, true, 3, 0);
    cut(32, false, 3, 1);
    cut(22, true, 2, 0);
    cut_everywhere();
    full_store();
    registers();
    other_lists();
    order_of_refusals();
}
