/* `inventory`: the text of a file of any size, in a buffer that grows until it holds it. */
#include <stdio.h>
#include <stdlib.h>

#include "buttresk.h"
#include "commands.h"
#include "growing.h"
#include "out.h"
#include "source.h"

enum { FIRST_ROOM = 32768 }; /* octets: some thousand lines */

struct listing {
    const struct source *source;
    uint8_t *text;
    size_t room;
    struct buttresk_store_answer answer;
};

static bool lend_text(void *with, size_t times)
{
    struct listing *l = with;
    free(l->text);
    l->room = FIRST_ROOM * times;
    l->text = malloc(l->room);
    return l->text != NULL;
}

static void list_lines(void *with)
{
    struct listing *l = with;
    l->answer = buttresk_inventory(l->source->octets, l->source->size, l->text, l->room);
}

static bool text_fits(const void *with)
{
    return ((const struct listing *)with)->answer.outcome != BUTTRESK_TEXT_TOO_SMALL;
}

/* A refused file has no lines, not even the one with its name: no lines behind a name say that a
 * file has no submessage. */
static enum status print_listed(const struct listing *l, bool several)
{
    const struct buttresk_store_answer *a = &l->answer;
    if (a->outcome != BUTTRESK_DONE) {
        return say_end(l->source->name, END_OF(*a));
    }
    if (several) {
        print_file_line(l->source->name);
    }
    return print_all(l->text, a->written) && output_taken() ? CLEAN : FAILED;
}

static enum status list_source(const struct source *source, bool several)
{
    static const struct growing growing = {"walking", "there is no memory for its inventory",
                                           lend_text, list_lines, text_fits};
    struct listing listing = {.source = source};
    if (source->too_long) {
        return source_refuse(source);
    }
    enum status status =
        answered(&growing, &listing, source) ? print_listed(&listing, several) : FAILED;
    free(listing.text);
    return status;
}

enum status inventory_of_file(const char *name, const struct asked *asked)
{
    struct source source;
    enum status status = source_open(&source, name) ? list_source(&source, asked->several) : FAILED;
    source_close(&source);
    return status;
}
