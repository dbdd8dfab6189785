/* What littlefs asks of a C library beyond examples/bare. */
#ifndef BENCH_WORK_STRINGS_H
#define BENCH_WORK_STRINGS_H

#include <string.h>

__attribute__((unused)) static char *strchr(const char *text, int byte)
{
    for (; *text != (char)byte; text++)
        if (*text == '\0')
            return NULL;
    return (char *)text;
}

/* How many characters at the beginning are among these, or are not. */
__attribute__((unused)) static size_t strspn(const char *text, const char *among)
{
    size_t n = 0;
    while (text[n] != '\0' && strchr(among, text[n]) != NULL)
        n++;
    return n;
}

__attribute__((unused)) static size_t strcspn(const char *text, const char *among)
{
    size_t n = 0;
    while (text[n] != '\0' && strchr(among, text[n]) == NULL)
        n++;
    return n;
}

__attribute__((unused)) static char *strcpy(char *to, const char *from)
{
    return memcpy(to, from, strlen(from) + 1);
}

#endif
