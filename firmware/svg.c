#include "svg.h"

#include <stdarg.h>
#include <stdio.h>

/* Ground, then the pattern drawn over it in an 8 x 8 square. */
static const struct {
    const char *name;
    const char *ground;
    const char *pattern;
    bool is_dark;
} look[FILLINGS] = {
    [EMPTY] = { "empty", "#ffffff", "", false },
    [TORN] = { "torn", "#f4b6ae", "<path d='M0 0L8 8M8 0L0 8' stroke='#c0392b' stroke-width='1'/>", false },
    [ALLOCATED] = { "allocated", "#fff3c4", "<path d='M2 0V8M6 0V8' stroke='#d0a92a' stroke-width='1.2'/>", false },
    [PENDING] = { "pending", "#fbc873", "<path d='M-2 2L2 -2M0 8L8 0M6 10L10 6' stroke='#e38f1e' stroke-width='1.4'/>", false },
    [CURRENT] = { "current", "#1d4f91", "", true },
    [OLD] = { "old", "#d5d5d5", "", false },
    [VOID] = { "void", "#ffffff", "<path d='M0 0L8 8' stroke='#555555' stroke-width='1.2'/>", false },
    [UNLISTED] = { "no listed kind", "#e05ad0", "<path d='M0 4H8' stroke='#400038' stroke-width='2'/>", false },
    [FILL_TRANSACTION] = { "open transaction", "#2f8f4e", "", true },
    [FILL_HEADER] = { "header", "#262626", "<circle cx='4' cy='4' r='1.2' fill='#ffffff'/>", true },
    [FILL_GAP] = { "gap", "#ffffff", "<circle cx='4' cy='4' r='0.8' fill='#b0b0b0'/>", false },
    [FILL_SPARE] = { "spare, erased", "#f6f9fc", "<path d='M0 8L8 0' stroke='#c9d6e2' stroke-width='0.8'/>", false },
    [FILL_UNWRITTEN] = { "not yet written", "#ffffff", "<path d='M0 0L8 8' stroke='#e0b060' stroke-width='0.8'/>", false },
    [FILL_OTHER] = { "other bytes", "#ffffff", "<path d='M0 0H8M0 4H8' stroke='#909090' stroke-width='0.8'/>", false },
};

bool svg_is_dark(int filling)
{
    return look[filling].is_dark;
}

const char *svg_name(int filling)
{
    return look[filling].name;
}

void svg_begin(double width, double height)
{
    printf(
        "<?xml version='1.0' encoding='UTF-8'?>\n"
        "<svg xmlns='http://www.w3.org/2000/svg' viewBox='0 0 %.0f %.0f' width='%.0f' height='%.0f' "
        "font-family='DejaVu Sans, Helvetica, Arial, sans-serif' font-size='12'>\n<defs>\n",
        width, height, width, height);
    for (int i = 0; i < FILLINGS; i++)
        printf(
            "<pattern id='f%d' width='8' height='8' patternUnits='userSpaceOnUse'><rect width='8' height='8' "
            "fill='%s'/>%s</pattern>\n",
            i, look[i].ground, look[i].pattern);
    printf(
        "<marker id='head' markerWidth='8' markerHeight='8' refX='7' refY='4' orient='auto'><path d='M0 0L8 4L0 8z' "
        "fill='#b03a00'/></marker>\n"
        "</defs>\n<rect width='%.0f' height='%.0f' fill='#ffffff'/>\n",
        width, height);
}

void svg_end(void)
{
    puts("</svg>");
}

/* Prints text so that XML has no other meaning for it; what is not plain ASCII becomes a question mark. */
static void print_escaped(const char *text)
{
    for (; *text != 0; text++) {
        if (*text == '&')
            fputs("&amp;", stdout);
        else if (*text == '<')
            fputs("&lt;", stdout);
        else if (*text == '>')
            fputs("&gt;", stdout);
        else
            putchar(*text >= 0x20 && *text < 0x7F ? *text : '?');
    }
}

static void print_text(const char *format, va_list values)
{
    char text[200];
    vsnprintf(text, sizeof text, format, values);
    print_escaped(text);
}

void svg_box(double x, double y, double width, double height, int filling, const char *class, const char *title, ...)
{
    va_list values;
    printf(
        "<rect class='%s' x='%.2f' y='%.2f' width='%.2f' height='%.2f' fill='url(#f%d)' stroke='#222222' "
        "stroke-width='0.7'><title>",
        class, x, y, width, height, filling);
    va_start(values, title);
    print_text(title, values);
    va_end(values);
    puts("</title></rect>");
}

void svg_text(double x, double y, bool centred, enum text_style style, const char *format, ...)
{
    static const char *const attributes[] = {
        [PLAIN] = "fill='#111111'",
        [BOLD] = "fill='#111111' font-weight='bold'",
        [SMALL] = "fill='#111111' font-size='9' stroke='#ffffff' stroke-width='2.6' stroke-opacity='0.85' paint-order='stroke'",
        [ON_DARK] = "fill='#ffffff' font-size='9'",
        [STRUCK] = "fill='#444444' font-size='9' text-decoration='line-through'",
        [HEADING] = "fill='#111111' font-size='16' font-weight='bold'",
    };
    va_list values;
    printf("<text x='%.2f' y='%.2f' %s%s>", x, y, centred ? "text-anchor='middle' " : "", attributes[style]);
    va_start(values, format);
    print_text(format, values);
    va_end(values);
    puts("</text>");
}

void svg_outline(double x, double y, double width, double height, bool dashed)
{
    printf("<rect x='%.2f' y='%.2f' width='%.2f' height='%.2f' fill='none' stroke='%s' stroke-width='%s'/>\n", x, y, width, height,
           dashed ? "#b03a00" : "#222222", dashed ? "3' stroke-dasharray='9 5" : "1.4");
}

void svg_arrow(double x, double from, double to)
{
    printf(
        "<path class='copy' d='M%.2f %.2fh24V%.2fh-22' fill='none' stroke='#b03a00' stroke-width='2.4' "
        "marker-end='url(#head)'/>\n",
        x, from, to);
}
