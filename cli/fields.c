/* `fields`: one line a submessage, of what the library decodes. */
#include <stdio.h>

#include "columns.h"
#include "commands.h"
#include "ending.h"

static void print_one(const char *name, const struct submessage *s, const struct asked *asked)
{
    if (asked->json) {
        print_columns_as_json(s, name);
    } else {
        print_columns(s, asked->several ? name : NULL);
    }
}

/* Whether every submessage could be decoded. */
static bool print_submessages(const struct source *source, const struct tables *tables,
                              const struct asked *asked)
{
    struct submessage submessage;
    for (uint64_t i = 0; i < tables->answer.submessages && !ferror(stdout); i++) {
        if (!decode_submessage(&submessage, source, tables, tables_line(tables, i),
                               asked->reading)) {
            return false;
        }
        print_one(source->name, &submessage, asked);
    }
    return true;
}

static bool print_fields(const struct source *source, const struct tables *tables,
                         const struct asked *asked)
{
    return print_watched(source, tables, asked, print_submessages);
}

void fields_head(const struct asked *asked)
{
    if (!asked->json) {
        print_columns_head(asked->several);
    }
}

enum status fields_of_file(const char *name, const struct asked *asked)
{
    return walk_and_print(name, asked, print_fields);
}
