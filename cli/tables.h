/* The walk of a mapped file, with tables that grow until they hold all of it. */
#ifndef TABLES_H
#define TABLES_H

#include <stdbool.h>
#include <stddef.h>
#include <stdint.h>

#include "buttresk.h"
#include "source.h"

struct tables {
    uint64_t *rows;
    size_t row_room; /* rows, not numbers */
    uint64_t *lines;
    size_t line_room;
    struct buttresk_walk_answer answer;
};

/* A row of the section table. */
struct row {
    uint64_t number;
    uint64_t offset;
    uint64_t length;
};

/* Columns of a line of the submessage table, as include/buttresk.h lays it out. There are nine
   places, and the message's offset and total length stand behind them. */
enum column { MESSAGE, SUBMESSAGE, HAS_LOCAL, CLOSED, PLACES, OFFSET = PLACES + 9, TOTAL };

/* Says its own reason, and answers false, if the file could not be walked to an answer. The answer
   may be a refusal, of 13 and 14 neither. The tables are to be freed either way. */
bool tables_walk(struct tables *tables, const struct source *source);

/* Octets that no listed section holds, up to the end of a clean file and up to where another is
   refused. */
uint64_t tables_outside(const struct tables *tables, const struct source *source);

struct row tables_row(const struct tables *tables, uint64_t place);
const uint64_t *tables_line(const struct tables *tables, uint64_t which);
void tables_free(struct tables *tables);

#endif
