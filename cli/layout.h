/* The columns of `list`: as wide as a file needs them, in lines of a hundred characters at most. */
#ifndef LAYOUT_H
#define LAYOUT_H

#include <stdbool.h>

#include "words.h"

/* Which field, when it holds, what it is of, and so on. */
enum view_column { WHICH, WHEN, WHAT, LEVEL, MEMBER, GRID, VIEW_COLUMNS };

/* A field in words, all of them ASCII. */
struct view {
    struct words cells[VIEW_COLUMNS];
    struct words numbers; /* instead of a parameter that has no name, where its words have no room;
                            empty where it has one */
};

struct layout {
    int widths[VIEW_COLUMNS];
    bool colour;
};

/* As wide as its header line, and in colour if standard output is a terminal that shows it. */
struct layout layout_start(void);

/* Makes room for a field. */
void layout_take(struct layout *layout, const struct view *view);

void layout_print_head(const struct layout *layout);
void layout_print(const struct layout *layout, const struct view *view);

#endif
