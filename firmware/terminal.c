/* The depot's terminal: its story with the power cut at every step, the story step by step, or one command on an image file. */
#include <errno.h>
#include <stdio.h>
#include <stdlib.h>
#include <string.h>

#include "chip.h"
#include "cuts.h"
#include "depot.h"
#include "watch.h"

static const char help[] =
    "usage: ./run [--short] [--nights N] [--size S] [--units U]\n"
    "           plays the depot's story with the power cut at every step of every call, and says what\n"
    "           the store held after each; then, where no N, S or U is given, longer stories on other\n"
    "           stores, in brief (--short: the story alone; cuts no mount, and plays only every 16th\n"
    "           history on to its end)\n"
    "       ./run watch [--delay MILLISECONDS] [--nights N] [--size S] [--units U]\n"
    "           plays the story step by step: Enter makes a step, c cuts the power; with --delay, or\n"
    "           where standard input is no terminal, it goes on by itself\n"
    "       ./run [--cut STEPS] [--size S] FILE COMMAND\n"
    "           does one command on the store in an image file, which has each step before the next\n"
    "           one is made, and cuts the power after that many steps\n"
    "             format               an empty store of --units units, whatever stood there before\n"
    "             story                formats, and plays the depot's story once\n"
    "             list                 mounts, and shows what the store holds\n"
    "             draft                shows the draft that a power cut left open, and of each of its\n"
    "                                  files whether it is of the draft or was committed before;\n"
    "                                  it does not mount, for that drops the draft\n"
    "             take NIGHT ZONE STAFF\n"
    "                                  takes a staff list for that night and zone, each 0 to 999; the file\n"
    "                                  STAFF has 1 to 16 people, one a line: a number from 1 to 65535, a\n"
    "                                  blank, a name\n"
    "             pass FIRST SECOND    gives a night pass to two people of the list, by their numbers\n"
    "The size S is 512, 1024, 2048 or 4096 bytes, U is 3 to 64 units, and S x U at most 65536; 512 and\n"
    "3 where nothing is said. The story has the staff lists of N nights, 2 to 14, and 3 where nothing is\n"
    "said: larger stores reclaim a unit only after more of them.\n"
    "Exit status: 0 all was right; 1 something was wrong, or refused; 2 bad usage, or a file that\n"
    "cannot be used.\n";

struct options {
    uint32_t size, units, nights, cut, delay;
    bool is_short;
    bool words_only;    /* for firmware/terminal: says whether the words are right, and does nothing */
    bool has_own_story; /* a size, units or nights were given */
    bool has_delay;
    int count;
    char *word[5];
};

static void misuse(const char *what, const char *word)
{
    fprintf(stderr, "terminal: %s%s%s (./run --help says what it takes)\n", what, word == NULL ? "" : ": ", word == NULL ? "" : word);
    exit(2);
}

static uint32_t number(const char *option, const char *text)
{
    char *end;
    if (text == NULL || text[0] < '0' || text[0] > '9')
        misuse("a number is missing after", option);
    errno = 0;
    unsigned long value = strtoul(text, &end, 10);
    if (*end != 0 || errno != 0 || value >= UINT32_MAX)
        misuse("no number that can be used", text);
    return (uint32_t)value;
}

static void take_options(struct options *o, char **argument)
{
    const struct {
        const char *name;
        uint32_t *value;
        bool *is_given;
    } numbers[] = { { "--size", &o->size, &o->has_own_story },
                    { "--units", &o->units, &o->has_own_story },
                    { "--nights", &o->nights, &o->has_own_story },
                    { "--cut", &o->cut, NULL },
                    { "--delay", &o->delay, &o->has_delay } };
    const size_t many = sizeof numbers / sizeof numbers[0];
    for (; *argument != NULL; argument++) {
        size_t i = 0;
        while (i < many && strcmp(*argument, numbers[i].name) != 0)
            i++;
        if (i < many) {
            *numbers[i].value = number(*argument, argument[1]);
            if (numbers[i].is_given != NULL)
                *numbers[i].is_given = true;
            argument++;
        } else if (strcmp(*argument, "--short") == 0) {
            o->is_short = true;
        } else if (strcmp(*argument, "--words") == 0) {
            o->words_only = true;
        } else if (strncmp(*argument, "--", 2) == 0 || o->count == 5) {
            misuse("not understood", *argument);
        } else {
            o->word[o->count++] = *argument;
        }
    }
}

static bool is_command(const struct options *o)
{
    const char *name = o->word[1];
    if (o->count == 2)
        return strcmp(name, "format") == 0 || strcmp(name, "story") == 0 || strcmp(name, "list") == 0 || strcmp(name, "draft") == 0;
    return (o->count == 5 && strcmp(name, "take") == 0) || (o->count == 4 && strcmp(name, "pass") == 0);
}

/* The story in full, and longer ones on other stores in brief, unless another is asked for. */
static int cut_everywhere(const struct options *o)
{
    static const struct plan more[] = {
        { 512, 3, MOST_NIGHTS, false, true, false }, { 512, 3, 2, false, true, true },    { 512, 4, 6, false, true, true },
        { 1024, 3, 8, false, true, false },          { 1024, 4, 12, false, true, false },
    };
    struct plan first = { o->size, o->units, o->nights, o->is_short, false, false };
    struct counts counts = { 0 };
    cuts_try(&first, &counts);
    if (!o->is_short && !o->has_own_story) {
        puts("\nThe same with more nights, with passes until there is no room, and on other stores:");
        for (size_t i = 0; i < sizeof more / sizeof more[0]; i++)
            cuts_try(&more[i], &counts);
    }
    cuts_sum_up(&counts);
    return counts.wrong == 0 ? 0 : 1;
}

int main(int count, char **argument)
{
    struct options o = { .size = 512, .units = 3, .nights = USUAL_NIGHTS, .cut = US_ALL };
    if (count == 2 && (strcmp(argument[1], "--help") == 0 || strcmp(argument[1], "-h") == 0)) {
        fputs(help, stdout);
        return 0;
    }
    if (count > 0)
        take_options(&o, argument + 1);
    if (!geometry_is_good(o.size, o.units))
        misuse("no geometry of a store", NULL);
    if (o.nights < FEWEST_NIGHTS || o.nights > MOST_NIGHTS || (o.nights != USUAL_NIGHTS && o.count > 0 && strcmp(o.word[0], "watch") != 0))
        misuse("the nights are 2 to 14, and of the story alone", NULL);
    if (o.cut != US_ALL && o.count < 2)
        misuse("--cut needs an image file and a command", NULL);
    if (o.has_delay && (o.count != 1 || strcmp(o.word[0], "watch") != 0))
        misuse("--delay is for watch", NULL);
    if (o.is_short && o.count > 0)
        misuse("--short stands alone", NULL);
    if (o.count == 1 ? strcmp(o.word[0], "watch") != 0 : o.count > 1 && !is_command(&o))
        misuse("no command of the terminal", o.word[o.count == 1 ? 0 : 1]);
    if (o.words_only)
        return 0;
    if (o.count == 0)
        return cut_everywhere(&o);
    if (o.count == 1)
        return watch(o.size, o.units, o.nights, o.has_delay, o.delay) ? 0 : 1;
    return chip_command(o.word[0], o.size, o.units, o.cut, o.word + 1, o.count - 1);
}
