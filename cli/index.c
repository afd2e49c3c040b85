/* `index`: what gribwalk prints (01, "Sample files"; 02, Ticket 7), of files of any size. */
#include <inttypes.h>
#include <stdio.h>

#include "commands.h"
#include "ending.h"
#include "json.h"
#include "out.h"

/* Two places can be none: there may be no section 2, and the message may go on. */
static bool is_there(const uint64_t *line, int number)
{
    return !(number == 2 && line[HAS_LOCAL] == 0) && !(number == 8 && line[CLOSED] == 0);
}

static void print_place(const uint64_t *line, int number)
{
    if (is_there(line, number)) {
        printf(" %" PRIu64, line[PLACES + number]);
    } else {
        fputs(number == 2 ? " -" : " open", stdout);
    }
}

static void print_line(const uint64_t *line)
{
    printf("%" PRIu64 ".%" PRIu64, line[MESSAGE], line[SUBMESSAGE]);
    for (int number = 0; number <= 8; number++) {
        print_place(line, number);
    }
    printf(" %" PRIu64 " %" PRIu64 "\n", line[OFFSET], line[TOTAL]);
}

static void print_lines(const struct tables *t)
{
    const struct buttresk_walk_answer *a = &t->answer;
    printf("sections %" PRIu64 " submessages %" PRIu64 " messages %" PRIu64 "\n", a->sections,
           a->submessages, a->messages);
    /* an output that is closed takes nothing more */
    for (uint64_t i = 0; i < a->submessages && !ferror(stdout); i++) {
        print_line(tables_line(t, i));
    }
    printf("end %" PRIu64 " %" PRIu64 " %" PRIu64 " %" PRIu64 "\n", a->outcome, a->place, a->offset,
           a->detail);
}

static void print_sections_as_json(const struct tables *t, const char *file)
{
    for (uint64_t place = 0; place < t->answer.sections && !ferror(stdout); place++) {
        struct row row = tables_row(t, place);
        json_begin("section", file);
        json_number("place", place);
        json_number("number", row.number);
        json_number("offset", row.offset);
        json_number("length", row.length);
        json_end();
    }
}

static void print_places_as_json(const uint64_t *line)
{
    json_key("places");
    for (int number = 0; number <= 8; number++) {
        putchar(number == 0 ? '[' : ',');
        if (is_there(line, number)) {
            printf("%" PRIu64, line[PLACES + number]);
        } else {
            fputs("null", stdout);
        }
    }
    putchar(']');
}

static void print_line_as_json(const uint64_t *line, const char *file)
{
    json_begin("submessage", file);
    json_number("message", line[MESSAGE]);
    json_number("submessage", line[SUBMESSAGE]);
    json_number("offset", line[OFFSET]);
    json_number("length", line[TOTAL]);
    json_bool("closed", line[CLOSED] != 0);
    print_places_as_json(line);
    json_end();
}

static void print_as_json(const struct tables *t, const char *file)
{
    print_sections_as_json(t, file);
    for (uint64_t i = 0; i < t->answer.submessages && !ferror(stdout); i++) {
        print_line_as_json(tables_line(t, i), file);
    }
}

static bool print_index(const struct source *source, const struct tables *tables,
                        const struct asked *asked)
{
    if (asked->json) {
        print_as_json(tables, source->name);
    } else {
        if (asked->several) {
            print_file_line(source->name);
        }
        print_lines(tables);
    }
    return true;
}

enum status index_file(const char *name, const struct asked *asked)
{
    return walk_and_print(name, asked, print_index);
}
