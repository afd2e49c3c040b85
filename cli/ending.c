#include "ending.h"

#include <unistd.h>

#include "json.h"
#include "out.h"
#include "watch.h"

/* Of a file that is refused what lies behind the refusal is not known, and a message may be what is
   refused: so only a clean one is told to have none. Answers whether something was told. */
static bool told_outside(const struct source *source, const struct tables *tables)
{
    uint64_t outside = tables_outside(tables, source);
    bool clean = tables->answer.outcome == BUTTRESK_DONE;
    if (clean && tables->answer.messages == 0) {
        say_no_message(source->name, outside);
        return true;
    }
    if (outside != 0) {
        say_outside(source->name, outside, clean);
    }
    return outside != 0;
}

/* Who re-requests a cut file has to know where its rest starts; the detail says how many octets
   that is at least. */
static enum status tell_ending(const struct source *source, const struct tables *tables,
                               bool strict)
{
    enum status status = say_end(source->name, END_OF(tables->answer));
    if (tables->answer.outcome == BUTTRESK_CUT) {
        say_rest_starts(source->name, source->size);
    }
    return told_outside(source, tables) && strict ? REFUSED : status;
}

void json_outcome(struct end end)
{
    json_number("outcome", end.outcome);
    json_string("name", outcome_name(end.outcome));
    json_string("means", outcome_means(end.outcome));
    json_number("place", end.place);
    json_number("offset", end.offset);
    json_number("detail", end.detail);
}

static void begin_end(const char *name, const struct asked *asked)
{
    json_begin("end", name);
    if (asked->says_reading) {
        json_reading(asked->reading);
    }
}

static void print_ending_as_json(const struct source *source, const struct tables *tables,
                                 const struct asked *asked)
{
    const struct buttresk_walk_answer *a = &tables->answer;
    begin_end(source->name, asked);
    json_outcome(END_OF(*a));
    json_number("octets", source->size);
    json_number("sections", a->sections);
    json_number("submessages", a->submessages);
    json_number("messages", a->messages);
    json_number("outside", tables_outside(tables, source));
    json_end();
}

/* On a terminal the lines themselves show how far it is. */
bool print_watched(const struct source *source, const struct tables *tables,
                   const struct asked *asked, print_walked *print)
{
    struct watch watch;
    watch_start(&watch, source, "decoding", isatty(STDOUT_FILENO) == 1);
    bool decoded = print(source, tables, asked);
    watch_stop(&watch);
    if (!decoded) {
        source_say_fault(source);
        return false;
    }
    return source_same(source);
}

enum status tell_failed(const char *name, const struct asked *asked)
{
    if (asked->json) {
        begin_end(name, asked);
        json_null("outcome");
        json_string("error", last_failure());
        json_end();
    }
    output_taken();
    return FAILED;
}

static enum status print_and_tell(const struct source *source, const struct tables *tables,
                                  const struct asked *asked, print_walked *print)
{
    if (!print(source, tables, asked)) {
        return tell_failed(source->name, asked);
    }
    if (asked->json) {
        print_ending_as_json(source, tables, asked);
    }
    return output_taken() ? tell_ending(source, tables, asked->strict) : FAILED;
}

enum status walk_and_print(const char *name, const struct asked *asked, print_walked *print)
{
    struct source source;
    struct tables tables = {0};
    bool walked = source_open(&source, name) && tables_walk(&tables, &source);
    enum status status =
        walked ? print_and_tell(&source, &tables, asked, print) : tell_failed(name, asked);
    tables_free(&tables);
    source_close(&source);
    return status;
}
