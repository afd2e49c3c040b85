#include "columns.h"

#include <inttypes.h>
#include <stdio.h>

#include "json.h"
#include "text.h"

enum { CELL_ROOM = 40 };

enum kind { NONE, NUMBER, TEXT };

struct cell {
    const char *name;
    enum kind kind;
    bool missing; /* there is a value, and all its bits are ones: "missing" by the Manual */
    char words[CELL_ROOM]; /* of a cell that is none they say nothing */
};

static struct cell none(const char *name)
{
    struct cell cell;
    cell.name = name;
    cell.kind = NONE;
    cell.missing = false;
    return cell;
}

/* Of a number that has no code for "missing". */
static struct cell plain(const char *name, bool known, uint64_t value)
{
    struct cell cell = none(name);
    if (known) {
        cell.kind = NUMBER;
        snprintf(cell.words, sizeof cell.words, "%" PRIu64, value);
    }
    return cell;
}

static struct cell code(const char *name, bool known, uint64_t value, int octets)
{
    struct cell cell = plain(name, known, value);
    cell.missing = known && value == UINT64_MAX >> (64 - 8 * octets);
    return cell;
}

/* By sign and size: all ones is the least number there is. */
static struct cell by_sign(const char *name, bool known, int32_t value, int octets)
{
    struct cell cell = none(name);
    if (known) {
        cell.kind = NUMBER;
        cell.missing = value == -(int32_t)(UINT32_MAX >> (33 - 8 * octets));
        snprintf(cell.words, sizeof cell.words, "%" PRId32, value);
    }
    return cell;
}

static bool all_ones(const struct buttresk_identification_fields *f)
{
    return f->year == UINT16_MAX && f->month == UINT8_MAX && f->day == UINT8_MAX &&
           f->hour == UINT8_MAX && f->minute == UINT8_MAX && f->second == UINT8_MAX;
}

/* The form of ISO 8601, in UTC; the numbers are not checked: a month may be 13 and an hour 255. */
static struct cell reference_time(const char *name, const struct buttresk_identification_fields *f)
{
    struct cell cell = none(name);
    if (f->known) {
        cell.kind = TEXT;
        cell.missing = all_ones(f);
        snprintf(cell.words, sizeof cell.words, "%04u-%02u-%02uT%02u:%02u:%02uZ", f->year, f->month,
                 f->day, f->hour, f->minute, f->second);
    }
    return cell;
}

/* The columns, in their order: each has its name and its value here, and nowhere else. A bit map
   indicator of 255 says that there is no bit map, and not that it is missing. */
enum { COLUMNS = 22 };
struct row_of_cells {
    struct cell cells[COLUMNS];
};

static struct row_of_cells columns_of(const struct submessage *s)
{
    const struct buttresk_identification_fields *one = &s->identification;
    const struct buttresk_product_fields *four = &s->product;
    const struct buttresk_surface *first = &four->surfaces.first, *second = &four->surfaces.second;
    bool surfaces = four->surfaces.known;
    return (struct row_of_cells){{
        plain("offset", true, s->offset),
        plain("length", true, s->length),
        code("discipline", s->indicator.known, s->indicator.discipline, 1),
        code("centre", one->known, one->centre, 2),
        code("subcentre", one->known, one->subcentre, 2),
        reference_time("reference", one),
        code("product_template", four->known, four->template_number, 2),
        code("category", four->category.known, four->category.value, 1),
        code("number", four->number.known, four->number.value, 1),
        code("process", four->process.known, four->process.value, 1),
        code("time_unit", four->time.known, four->time.unit, 1),
        code("time", four->time.known, four->time.time, time_octets(s)),
        code("first_type", surfaces, first->type, 1),
        by_sign("first_factor", surfaces, first->factor, 1),
        by_sign("first_value", surfaces, first->value, 4),
        code("second_type", surfaces, second->type, 1),
        by_sign("second_factor", surfaces, second->factor, 1),
        by_sign("second_value", surfaces, second->value, 4),
        code("grid_template", s->grid.known, s->grid.template_number, 2),
        code("points", s->grid.known, s->grid.points, 4),
        code("representation_template", s->representation.known, s->representation.template_number,
             2),
        plain("bitmap", s->bit_map.known, s->bit_map.indicator),
    }};
}

void print_columns_head(bool with_file)
{
    static const struct submessage nothing;
    struct row_of_cells row = columns_of(&nothing);
    fputs(with_file ? "file\tsubmessage" : "submessage", stdout);
    for (int i = 0; i < COLUMNS; i++) {
        printf("\t%s", row.cells[i].name);
    }
    putchar('\n');
}

static const char *words_of(const struct cell *cell)
{
    return cell->kind == NONE ? "none" : cell->missing ? "missing" : cell->words;
}

void print_columns(const struct submessage *s, const char *file)
{
    struct row_of_cells row = columns_of(s);
    if (file != NULL) {
        put_name(stdout, file);
        putchar('\t');
    }
    printf("%" PRIu64 ".%" PRIu64, s->message, s->submessage);
    for (int i = 0; i < COLUMNS; i++) {
        printf("\t%s", words_of(&row.cells[i]));
    }
    putchar('\n');
}

static void print_json_value(const struct cell *cell)
{
    if (cell->kind == NONE) {
        json_null(cell->name);
    } else if (cell->kind == TEXT) {
        json_string(cell->name, cell->words);
    } else {
        json_key(cell->name);
        fputs(cell->words, stdout);
    }
}

/* The numbers of the columns stand as they are; which of them are all ones is said beside them. */
static void print_missing(const struct row_of_cells *row)
{
    const char *between = "";
    json_key("missing");
    putchar('[');
    for (int i = 0; i < COLUMNS; i++) {
        if (row->cells[i].missing) {
            printf("%s\"%s\"", between, row->cells[i].name);
            between = ",";
        }
    }
    putchar(']');
}

void print_columns_as_json(const struct submessage *s, const char *file)
{
    struct row_of_cells row = columns_of(s);
    json_begin("submessage", file);
    json_reading(s->reading);
    json_number("message", s->message);
    json_number("submessage", s->submessage);
    for (int i = 0; i < COLUMNS; i++) {
        print_json_value(&row.cells[i]);
    }
    print_missing(&row);
    json_end();
}
