#include "roll.h"

#include <errno.h>
#include <inttypes.h>
#include <stdio.h>
#include <stdlib.h>
#include <string.h>

enum { LONGEST_LINE = LONGEST_NAME + 8 };

bool roll_number(const char *text, uint32_t largest, uint32_t *number)
{
    size_t digits = strspn(text, "0123456789");
    if (digits == 0 || digits > 10 || text[digits] != 0 || (text[0] == '0' && digits > 1) || strtoull(text, NULL, 10) > largest)
        return false;
    *number = (uint32_t)strtoul(text, NULL, 10);
    return true;
}

static bool is_name(const char *text)
{
    if (text[0] == 0 || strlen(text) >= LONGEST_NAME)
        return false;
    for (; *text != 0; text++)
        if ((unsigned char)*text < ' ' || *text == 0x7F)
            return false;
    return true;
}

/* Puts a person in the place that the number has; false where the number is there already. */
static bool add_person(struct staff *s, uint32_t number, const char *name)
{
    uint32_t at = s->people;
    while (at > 0 && s->number[at - 1] > number)
        at--;
    if (at > 0 && s->number[at - 1] == number)
        return false;
    memmove(&s->number[at + 1], &s->number[at], (s->people - at) * sizeof s->number[0]);
    memmove(&s->name[at + 1], &s->name[at], (s->people - at) * sizeof s->name[0]);
    s->number[at] = number;
    strcpy(s->name[at], name);
    s->people++;
    return true;
}

/* NULL where the line is one more person of the list; else what it must be. */
static const char *take_line(struct staff *s, char *line)
{
    uint32_t number;
    size_t length = strcspn(line, "\n");
    if (line[length] == 0)
        return "a line is too long, or the last one does not end";
    line[length] = 0;
    char *name = strchr(line, ' ');
    if (name == NULL)
        return "a line has a number, a blank and a name";
    *name++ = 0;
    if (!roll_number(line, LARGEST_PERSON, &number) || number == 0)
        return "a person's number is 1 to 65535, without leading zeros";
    if (!is_name(name))
        return "a name has 1 to 39 bytes, and no control character";
    if (s->people == MOST_PEOPLE)
        return "a list has at most 16 people";
    return add_person(s, number, name) ? NULL : "the same number stands twice";
}

bool roll_read(const char *path, struct staff *s)
{
    char line[LONGEST_LINE];
    const char *what = NULL;
    FILE *in = fopen(path, "r");
    if (in == NULL) {
        fprintf(stderr, "terminal: %s: %s\n", path, strerror(errno));
        return false;
    }
    s->people = 0;
    for (uint32_t number = 1; what == NULL && fgets(line, sizeof line, in) != NULL; number++) {
        what = take_line(s, line);
        if (what != NULL)
            fprintf(stderr, "terminal: %s: line %" PRIu32 ": %s\n", path, number, what);
    }
    bool is_read = ferror(in) == 0;
    fclose(in);
    if (!is_read)
        fprintf(stderr, "terminal: %s: it could not be read\n", path);
    else if (what == NULL && s->people == 0)
        fprintf(stderr, "terminal: %s: a list without people is not taken\n", path);
    return is_read && what == NULL && s->people > 0;
}
