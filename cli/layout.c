#include "layout.h"

#include <stdio.h>
#include <stdlib.h>
#include <string.h>
#include <unistd.h>

enum { LINE = 100, GAP = 2 };

/* What is longer stands in its own line alone, and widens no column of the others. */
static const int widest[VIEW_COLUMNS] = {
    [WHICH] = 22, [WHEN] = 22, [WHAT] = LINE, [LEVEL] = 24, [MEMBER] = 8, [GRID] = 13};

/* What is cut in a line that is too long, this far at most; what is not here is whole. A number of
   a submessage has 22 characters in the longest file, a member 10, a grid 17: with these and the
   gaps that is a hundred. */
static const int least[VIEW_COLUMNS] = {[WHEN] = 15, [WHAT] = 18, [LEVEL] = 8};

/* The order in which columns give way. */
static const enum view_column giving[] = {WHAT, MEMBER, LEVEL, WHEN, WHICH, GRID};

static const struct view head = {.cells = {[WHICH] = {"field"},
                                           [WHEN] = {"valid time"},
                                           [WHAT] = {"parameter"},
                                           [LEVEL] = {"level"},
                                           [MEMBER] = {"member"},
                                           [GRID] = {"grid"}}};

/* Select Graphic Rendition of ECMA-48: faint, cyan, bold. */
static const char *const colours[VIEW_COLUMNS] = {[WHICH] = "2", [WHEN] = "36", [WHAT] = "1"};

static int smaller(int a, int b)
{
    return a < b ? a : b;
}

static int larger(int a, int b)
{
    return a > b ? a : b;
}

/* By the customs of no-color.org and of terminals that know no escapes. */
static bool wants_colour(void)
{
    const char *refused = getenv("NO_COLOR");
    const char *terminal = getenv("TERM");
    return isatty(STDOUT_FILENO) == 1 && (refused == NULL || refused[0] == '\0') &&
           terminal != NULL && strcmp(terminal, "dumb") != 0;
}

static void widen(struct layout *layout, const struct view *view, enum view_column c)
{
    int length = length_of(&view->cells[c]);
    layout->widths[c] = larger(layout->widths[c], smaller(length, widest[c]));
}

/* A column of members is only there if a field has one, and then has its title. */
struct layout layout_start(void)
{
    struct layout layout = {.colour = wants_colour()};
    for (int c = 0; c < VIEW_COLUMNS; c++) {
        if (c != MEMBER) {
            widen(&layout, &head, (enum view_column)c);
        }
    }
    return layout;
}

void layout_take(struct layout *layout, const struct view *view)
{
    for (int c = 0; c < VIEW_COLUMNS; c++) {
        widen(layout, view, (enum view_column)c);
    }
    if (layout->widths[MEMBER] > 0) {
        widen(layout, &head, MEMBER);
    }
}

/* --- A line --- */

static int length_with_gaps(const int rooms[VIEW_COLUMNS])
{
    int sum = -GAP;
    for (int c = 0; c < VIEW_COLUMNS; c++) {
        sum += rooms[c] > 0 ? rooms[c] + GAP : 0;
    }
    return sum;
}

static void give_way(int rooms[VIEW_COLUMNS], const struct view *view)
{
    int over = length_with_gaps(rooms) - LINE;
    for (int i = 0; i < VIEW_COLUMNS && over > 0; i++) {
        enum view_column c = giving[i];
        int length = length_of(&view->cells[c]);
        int keeps = least[c] > 0 ? smaller(length, least[c]) : length;
        int gives = smaller(over, rooms[c] - keeps);
        rooms[c] -= gives;
        over -= gives;
    }
}

static void fit(int rooms[VIEW_COLUMNS], const struct layout *layout, const struct view *view)
{
    for (int c = 0; c < VIEW_COLUMNS; c++) {
        rooms[c] = larger(layout->widths[c], length_of(&view->cells[c]));
    }
    give_way(rooms, view);
}

/* A text that is too long ends in `..`, but for a unit behind it, which stays. */
static struct words cut(const struct words *whole, int room)
{
    enum { MARK = 2, SOME = 4 };
    struct words text = {""};
    const char *unit = strstr(whole->text, " [");
    int behind = unit == NULL ? 0 : (int)strlen(unit);
    if (length_of(whole) <= room) {
        return *whole;
    }
    if (behind + MARK + SOME > room) {
        behind = 0;
    }
    add(&text, "%.*s..%s", room - MARK - behind, whole->text, behind == 0 ? "" : unit);
    return text;
}

static struct words shown(const struct view *view, enum view_column c, int room)
{
    bool in_numbers =
        c == WHAT && length_of(&view->cells[c]) > room && length_of(&view->numbers) > 0;
    return cut(in_numbers ? &view->numbers : &view->cells[c], room);
}

/* Times end below one another, all else begins so. Nothing is put behind the last column. */
static void print_cell(const struct words *text, enum view_column c, int room, const char *colour)
{
    int blank = room - length_of(text);
    printf("%*s", c == WHEN ? blank : 0, "");
    if (colour != NULL) {
        printf("\033[%sm%s\033[m", colour, text->text);
    } else {
        fputs(text->text, stdout);
    }
    printf("%*s", c == WHEN || c == GRID ? 0 : blank, "");
}

static void print_line(const struct layout *layout, const struct view *view,
                       const char *const renditions[VIEW_COLUMNS])
{
    int rooms[VIEW_COLUMNS];
    fit(rooms, layout, view);
    for (int c = 0; c < VIEW_COLUMNS; c++) {
        struct words text = shown(view, (enum view_column)c, rooms[c]);
        if (rooms[c] > 0) {
            printf("%*s", c == WHICH ? 0 : GAP, "");
            print_cell(&text, (enum view_column)c, rooms[c], layout->colour ? renditions[c] : NULL);
        }
    }
    putchar('\n');
}

void layout_print_head(const struct layout *layout)
{
    static const char *const underlined[VIEW_COLUMNS] = {"4", "4", "4", "4", "4", "4"};
    struct view titles = head;
    if (layout->widths[MEMBER] == 0) {
        titles.cells[MEMBER].text[0] = '\0';
    }
    print_line(layout, &titles, underlined);
}

void layout_print(const struct layout *layout, const struct view *view)
{
    print_line(layout, view, colours);
}
