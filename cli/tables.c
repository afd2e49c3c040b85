#include "tables.h"

#include <assert.h>
#include <stdlib.h>

#include "growing.h"

/* Some 24 and 15 KiB. If one is full both are made twice as large. A submessage has four sections
   of its own at least and nine at most, so neither table is much larger than it need be. */
enum { FIRST_ROWS = 1024, FIRST_LINES = 128 };

static_assert(sizeof(size_t) == 8,
              "a table's size in bytes has to fit: a file of 2^40 octets has under 2^38 sections");

struct walking {
    struct tables *tables;
    const struct source *source;
};

static void walk(void *with)
{
    struct walking *w = with;
    struct tables *t = w->tables;
    t->answer = buttresk_walk(w->source->octets, w->source->size, t->rows,
                              t->row_room * BUTTRESK_ROW, t->lines, t->line_room * BUTTRESK_LINE);
}

static bool sized(uint64_t **table, size_t *room, size_t wanted, size_t numbers)
{
    free(*table);
    *table = malloc(wanted * numbers * sizeof **table);
    *room = *table == NULL ? 0 : wanted;
    return *table != NULL;
}

static bool lend_tables(void *with, size_t times)
{
    struct tables *t = ((struct walking *)with)->tables;
    return sized(&t->rows, &t->row_room, FIRST_ROWS * times, BUTTRESK_ROW) &&
           sized(&t->lines, &t->line_room, FIRST_LINES * times, BUTTRESK_LINE);
}

static bool tables_fit(const void *with)
{
    uint64_t outcome = ((const struct walking *)with)->tables->answer.outcome;
    return outcome != BUTTRESK_SECTION_TABLE_FULL && outcome != BUTTRESK_SUBMESSAGE_TABLE_FULL;
}

bool tables_walk(struct tables *tables, const struct source *source)
{
    static const struct growing growing = {"walking", "there is no memory for its tables",
                                           lend_tables, walk, tables_fit};
    struct walking walking = {tables, source};
    *tables = (struct tables){0};
    if (source->too_long) {
        tables->answer.outcome = BUTTRESK_FILE_TOO_LONG;
        return source_same(source);
    }
    return answered(&growing, &walking, source);
}

/* Sections of one message stand end to end, so what lies between two of them is outside.
   The walk of a refused file came to where it is refused, or, if the section there is listed,
   behind that. */
uint64_t tables_outside(const struct tables *tables, const struct source *source)
{
    const struct buttresk_walk_answer *a = &tables->answer;
    uint64_t outside = 0, end = 0;
    for (uint64_t place = 0; place < a->sections; place++) {
        struct row row = tables_row(tables, place);
        outside += row.offset - end;
        end = row.offset + row.length;
    }
    uint64_t reached = a->outcome == BUTTRESK_DONE ? source->size : a->offset;
    return reached > end ? outside + (reached - end) : outside;
}

struct row tables_row(const struct tables *tables, uint64_t place)
{
    const uint64_t *row = tables->rows + place * BUTTRESK_ROW;
    return (struct row){row[0], row[1], row[2]};
}

const uint64_t *tables_line(const struct tables *tables, uint64_t which)
{
    return tables->lines + which * BUTTRESK_LINE;
}

void tables_free(struct tables *tables)
{
    free(tables->rows);
    free(tables->lines);
}
