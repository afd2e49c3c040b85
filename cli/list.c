/* `list`: the human view, one line a submessage, with the words of the Manual's code tables. */
#include <inttypes.h>
#include <stdio.h>
#include <string.h>

#include "commands.h"
#include "decoding.h"
#include "ending.h"
#include "grids.h"
#include "layout.h"
#include "levels.h"
#include "members.h"
#include "out.h"
#include "parameters.h"
#include "products.h"
#include "valid_time.h"

/* What is listed of a submessage. The last two are read from octets that the library does not
   decode, which are no values octets. */
struct listed {
    struct submessage decoded;
    struct member member;
    struct extent extent;
};

/* --- In words --- */

/* Numbers that are not the parameter's own, such as a probability of it, are told before it. */
static void add_kind(struct words *text, uint16_t template_number)
{
    const struct product *product = product_of(template_number);
    if (product != NULL && strcmp(product->kind, "-") != 0) {
        add(text, "%s: ", product->kind);
    }
}

static void add_name(struct words *text, const struct parameter *p)
{
    add(text, "%s", p->name);
    if (strcmp(p->unit, "-") != 0) {
        add(text, " [%s]", p->unit);
    }
}

static void add_parameter(struct view *view, uint8_t discipline,
                          const struct buttresk_product_fields *f)
{
    unsigned category = f->category.value, number = f->number.value;
    const struct parameter *p = parameter_of(discipline, f->category.value, f->number.value);
    add_kind(&view->cells[WHAT], f->template_number);
    if (p != NULL) {
        add_name(&view->cells[WHAT], p);
    } else {
        add(&view->cells[WHAT], "discipline %u category %u number %u", discipline, category,
            number);
        add_kind(&view->numbers, f->template_number);
        add(&view->numbers, "%u.%u.%u", discipline, category, number);
    }
}

static void add_what(struct view *view, const struct submessage *s)
{
    const struct buttresk_product_fields *f = &s->product;
    if (f->category.known && f->number.known && s->indicator.known) {
        add_parameter(view, s->indicator.discipline, f);
    } else if (f->known) {
        add(&view->cells[WHAT], "product template %u", f->template_number);
    } else {
        add(&view->cells[WHAT], "-");
    }
}

static void add_member(struct words *text, const struct member *m)
{
    if (m->known) {
        add(text, "%u", m->perturbation);
    }
    if (m->known && m->of_known) {
        add(text, " of %u", m->of);
    }
}

static void add_grid(struct words *text, const struct buttresk_grid_fields *f,
                     const struct extent *e)
{
    if (e->known) {
        add(text, "%" PRIu32 " x %" PRIu32, e->along, e->down);
    } else if (f->known) {
        add(text, "%" PRIu32 " point%s", f->points, f->points == 1 ? "" : "s");
    } else {
        add(text, "-");
    }
}

static struct view view_of(const struct listed *l)
{
    const struct submessage *s = &l->decoded;
    struct view view = {.numbers = {""}};
    add(&view.cells[WHICH], "%" PRIu64 ".%" PRIu64, s->message, s->submessage);
    add_valid_time(&view.cells[WHEN], s);
    add_what(&view, s);
    add_level(&view.cells[LEVEL], &s->product.surfaces);
    add_member(&view.cells[MEMBER], &l->member);
    add_grid(&view.cells[GRID], &s->grid, &l->extent);
    return view;
}

/* --- From the file --- */

static void read_undecoded(const struct submessage *s, struct part three, struct part four,
                           void *with)
{
    struct listed *l = with;
    l->member = member_of(s->product.template_number, four.octets, four.size);
    l->extent = extent_of(s->grid.template_number, s->grid.points, three.octets, three.size);
}

/* What is done with each submessage: room is made for it, or it is printed. */
typedef void with_view(struct layout *layout, const struct view *view);

static void print_view(struct layout *layout, const struct view *view)
{
    layout_print(layout, view);
}

/* Whether every submessage could be read. */
static bool for_each_submessage(const struct source *source, const struct tables *tables,
                                enum buttresk_reading reading, struct layout *layout,
                                with_view *act)
{
    struct listed listed;
    for (uint64_t i = 0; i < tables->answer.submessages && !ferror(stdout); i++) {
        if (!decode_also(&listed.decoded, source, tables, tables_line(tables, i), reading,
                         read_undecoded, &listed)) {
            return false;
        }
        const struct view view = view_of(&listed);
        act(layout, &view);
    }
    return true;
}

/* The submessages are read twice: how wide the columns are has to be known before the first line,
   and so no line is kept. */
static bool print_lines(const struct source *source, const struct tables *tables,
                        const struct asked *asked)
{
    struct layout layout = layout_start();
    if (!for_each_submessage(source, tables, asked->reading, &layout, layout_take)) {
        return false;
    }
    layout_print_head(&layout);
    return for_each_submessage(source, tables, asked->reading, &layout, print_view);
}

static bool print_list(const struct source *source, const struct tables *tables,
                       const struct asked *asked)
{
    if (asked->several) {
        print_file_line(source->name);
    }
    return print_watched(source, tables, asked, print_lines);
}

enum status list_of_file(const char *name, const struct asked *asked)
{
    return walk_and_print(name, asked, print_list);
}
