#include "pass_emit.h"

#include <inttypes.h>

#include "rows.h"

static struct {
    uint64_t gives, done, midway, stopped, unstarted, stopped_of_midway, staffs, registers;
    uint64_t give[PASS_NUMBERS], staff[PASS_NUMBERS], look[PASS_NUMBERS], list[FAULTS], text[FAULTS];
    uint64_t left[3]; /* by stopped gives: settled and none open, settled and open, not settled */
} tally;

struct pass_answer plan_give(uint32_t first, uint32_t second)
{
    static struct bench whole;
    bench_copy(&whole, &scene);
    return passes_give(whole.flash, first, second, UINT32_MAX);
}

struct pass_answer emit_give(uint32_t first, uint32_t second, uint32_t allowance)
{
    struct pass_answer whole = plan_give(first, second);
    printf("give %" PRIu32 " %" PRIu32 " %" PRIu32 "\n", first, second, allowance);
    struct pass_answer a = passes_give(scene.flash, first, second, allowance);
    tally.gives++;
    tally.give[a.number]++;
    tally.done += a.number == DONE;
    tally.midway += a.number > STOPPED && a.steps > 0;
    if (a.number != STOPPED)
        return a;
    tally.stopped++;
    tally.unstarted += a.steps == 0;
    tally.stopped_of_midway += whole.number == NO_ROOM;
    uint32_t open = store_read_transaction(scene.flash, 0).number;
    tally.left[open == NO_TRANSACTION ? 0 : open == UNSETTLED ? 2 : 1]++;
    return a;
}

void emit_staff(void)
{
    puts("staff");
    tally.staffs++;
    tally.staff[passes_staff(scene.flash).number]++;
}

void emit_register(void)
{
    puts("register");
    tally.registers++;
    tally.look[passes_register(scene.flash).number]++;
}

void count_list(enum fault fault)
{
    tally.list[fault]++;
}

void count_register(enum fault fault)
{
    tally.text[fault]++;
}

uint64_t emitted_gives(void)
{
    return tally.gives;
}

uint64_t emitted_pass_lines(void)
{
    return tally.gives + tally.staffs + tally.registers;
}

static void print_numbers(FILE *out, const char *title, const uint64_t *row)
{
    fputs(title, out);
    for (uint32_t i = 0; i < PASS_NUMBERS; i++)
        if (i <= NO_ROOM || i >= NO_LIST)
            fprintf(out, " %" PRIu32 "=%" PRIu64, i, row[i]);
    putc('\n', out);
}

void pass_print_counts(FILE *out)
{
    fprintf(out,
            "gives all=%" PRIu64 " done=%" PRIu64 " refused-midway=%" PRIu64 " stopped=%" PRIu64 " stopped-before-a-step=%" PRIu64
            " stopped-on-the-way-to-a-refusal=%" PRIu64 "\n",
            tally.gives, tally.done, tally.midway, tally.stopped, tally.unstarted, tally.stopped_of_midway);
    print_numbers(out, "give-numbers", tally.give);
    print_numbers(out, "staff-numbers", tally.staff);
    print_numbers(out, "register-numbers", tally.look);
    fprintf(out, "left-by-stopped-gives settled=%" PRIu64 " settled-and-open=%" PRIu64 " unsettled=%" PRIu64 "\n", tally.left[0],
            tally.left[1], tally.left[2]);
    print_row(out, "lists", fault_name, tally.list, FAULTS);
    print_row(out, "registers", fault_name, tally.text, FAULTS);
}
