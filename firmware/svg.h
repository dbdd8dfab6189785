/* The few shapes that a picture of an image needs. */
#ifndef FIRMWARE_SVG_H
#define FIRMWARE_SVG_H

#include "layout.h"

/* How a box is filled. The kinds come first, so that a kind is its own filling; each differs from the others in grey as well. */
enum filling { FILL_TRANSACTION = KINDS, FILL_HEADER, FILL_GAP, FILL_SPARE, FILL_UNWRITTEN, FILL_OTHER, FILLINGS };

void svg_begin(double width, double height);
void svg_end(void);

/* A box, its class and what it says when it is pointed at. */
void svg_box(double x, double y, double width, double height, int filling, const char *class, const char *title, ...);

enum text_style { PLAIN, BOLD, SMALL, ON_DARK, STRUCK, HEADING };

/* Text that starts at x, or is centred on x. */
void svg_text(double x, double y, bool centred, enum text_style style, const char *format, ...);

void svg_outline(double x, double y, double width, double height, bool dashed);

/* An arrow that leaves one row's end to the right and comes back to another's. */
void svg_arrow(double x, double from, double to);

bool svg_is_dark(int filling);
const char *svg_name(int filling);

#endif
