/* `read-list`: the entries of a list that is in the form of an inventory. */
#include <inttypes.h>
#include <stdio.h>
#include <stdlib.h>

#include "buttresk.h"
#include "commands.h"
#include "ending.h"
#include "growing.h"
#include "json.h"
#include "out.h"
#include "source.h"
#include "text.h"

enum { FIRST_ENTRIES = 1024 };

/* Where the thirteen numbers of an entry have which field; `known` is where it is said whether
 * there is one, for those that can be none. */
enum { ALWAYS = -1, COLUMNS = 7 };

static const struct entry_column {
    const char *name;
    int known;
    int value;
} columns[COLUMNS] = {
    {"offset", ALWAYS, 2}, {"discipline", ALWAYS, 3}, {"category", 4, 5},     {"number", 6, 7},
    {"time_unit", 8, 9},   {"time", 8, 10},           {"first_type", 11, 12},
};

struct reading {
    const struct source *source;
    uint64_t *entries;
    size_t room;
    struct buttresk_list_answer answer;
};

static bool lend_entries(void *with, size_t times)
{
    struct reading *r = with;
    free(r->entries);
    r->room = FIRST_ENTRIES * times;
    r->entries = malloc(r->room * BUTTRESK_ENTRY * sizeof *r->entries);
    return r->entries != NULL;
}

static void read_lines(void *with)
{
    struct reading *r = with;
    r->answer = buttresk_read_list(r->source->octets, r->source->size, r->entries,
                                   r->room * BUTTRESK_ENTRY);
}

static bool entries_fit(const void *with)
{
    return ((const struct reading *)with)->answer.outcome != BUTTRESK_SUBMESSAGE_TABLE_FULL;
}

static void print_value(const uint64_t *entry, const struct entry_column *c, const char *none)
{
    if (c->known != ALWAYS && entry[c->known] == 0) {
        fputs(none, stdout);
    } else {
        printf("%" PRIu64, entry[c->value]);
    }
}

void read_list_head(const struct asked *asked)
{
    if (asked->json) {
        return;
    }
    fputs(asked->several ? "file\tsubmessage" : "submessage", stdout);
    for (int i = 0; i < COLUMNS; i++) {
        printf("\t%s", columns[i].name);
    }
    putchar('\n');
}

static void print_table_line(const uint64_t *entry, const char *file)
{
    if (file != NULL) {
        put_name(stdout, file);
        putchar('\t');
    }
    printf("%" PRIu64 ".%" PRIu64, entry[0], entry[1]);
    for (int i = 0; i < COLUMNS; i++) {
        putchar('\t');
        print_value(entry, &columns[i], "none");
    }
    putchar('\n');
}

static void print_object(const uint64_t *entry, const char *file)
{
    json_begin("entry", file);
    json_number("message", entry[0]);
    json_number("submessage", entry[1]);
    for (int i = 0; i < COLUMNS; i++) {
        json_key(columns[i].name);
        print_value(entry, &columns[i], "null");
    }
    json_end();
}

static void print_end(const struct reading *r)
{
    json_begin("end", r->source->name);
    json_outcome(END_OF(r->answer));
    json_number("octets", r->source->size);
    json_number("entries", r->answer.entries);
    json_end();
}

static void print_entries(const struct reading *r, const struct asked *asked)
{
    const char *file = r->source->name;
    for (uint64_t i = 0; i < r->answer.entries && !ferror(stdout); i++) {
        const uint64_t *entry = r->entries + i * BUTTRESK_ENTRY;
        if (asked->json) {
            print_object(entry, file);
        } else {
            print_table_line(entry, asked->several ? file : NULL);
        }
    }
}

/* Of a refused list the entries before the line that is refused are printed. */
static enum status print_list(const struct reading *r, const struct asked *asked)
{
    print_entries(r, asked);
    if (asked->json) {
        print_end(r);
    }
    return output_taken() ? say_end(r->source->name, END_OF(r->answer)) : FAILED;
}

static bool read_source(struct reading *reading, const struct source *source)
{
    static const struct growing growing = {"reading", "there is no memory for its entries",
                                           lend_entries, read_lines, entries_fit};
    if (source->too_long) {
        say_failed(source->name, "is over 2^40 octets");
        return false;
    }
    return answered(&growing, reading, source);
}

enum status read_list(const char *name, const struct asked *asked)
{
    struct source source;
    struct reading reading = {.source = &source};
    bool read = source_open(&source, name) && read_source(&reading, &source);
    enum status status = read ? print_list(&reading, asked) : tell_failed(name, asked);
    free(reading.entries);
    source_close(&source);
    return status;
}
