#include "verbs.h"

#include <limits.h>
#include <stddef.h>
#include <string.h>

#define MANY_FILES (JOBS | FILES0_FROM)
#define OUTSIDE                                                                                    \
    "Octets outside messages, and a file without a message, are told on standard error;\n"         \
    "--strict makes them status 1.\n"
#define OBJECTS                                                                                    \
    "--json: an object a line, each with its `kind`; the last of a file is its `end`: how it\n"    \
    "ended, in words and numbers.\n"

const struct verb verbs[] = {
    {.name = "index",
     .synopsis = "[--json] [--strict] FILE..",
     .does = "the sections' places of every submessage, and how the file ends",
     .help =
         "A line for every submessage: message and submessage, the places of its sections 0 to 8\n"
         "(`-`: no section 2; `open`: the message goes on), offset and length of its message.\n"
         "The last line is how the walk ended: outcome, place, offset, detail.\n" OUTSIDE OBJECTS
         "There is an object for every section as well, with its offset and length.\n",
     .takes = JSON | STRICT | MANY_FILES,
     .least = 1,
     .most = INT_MAX,
     .wants = "a FILE is wanted by ",
     .of_file = index_file},
    {.name = "fields",
     .synopsis = "[--json] [--strict] [--as-crate] FILE..",
     .does = "a line for every submessage, with its decoded fields",
     .help =
         "One table for all files: columns one tab apart, of several files `file` first. `none`:\n"
         "there is no such field; `missing`: it is there, and all ones. Times are UTC.\n"
         "The time of product template 44 and the process of 47 are read by the WMO Manual,\n"
         "with --as-crate as by the Rust crate grib 0.20.2; all else is the crate's.\n" OUTSIDE
             OBJECTS
         "There `missing` names the fields that are all ones, beside their numbers, and `reading`\n"
         "is `by-manual` or `as-crate`.\n",
     .takes = JSON | STRICT | AS_CRATE | MANY_FILES,
     .least = 1,
     .most = INT_MAX,
     .wants = "a FILE is wanted by ",
     .head = fields_head,
     .of_file = fields_of_file},
    {.name = "list",
     .synopsis = "[--strict] FILE..",
     .does = "the same for people: valid time, parameter, level, member, grid",
     .help = "One line a submessage, of at most 100 columns. Numbers stand where no name is "
             "known.\n" OUTSIDE,
     .takes = STRICT | MANY_FILES,
     .least = 1,
     .most = INT_MAX,
     .wants = "a FILE is wanted by ",
     .of_file = list_of_file},
    {.name = "inventory",
     .synopsis = "FILE..",
     .does = "a short line for every submessage of a clean file, to be sent back corrected",
     .help = "Nine fields with a colon between any two: message, submessage, offset, discipline,\n"
             "category, number, time unit, time, type of the first surface. Product templates are\n"
             "read as by `fields`.\n",
     .takes = MANY_FILES,
     .least = 1,
     .most = INT_MAX,
     .wants = "a FILE is wanted by ",
     .of_file = inventory_of_file},
    {.name = "read-list",
     .synopsis = "[--json] LIST..",
     .does = "the entries of such a list, which need not be any file's",
     .help = "One table for all lists, of several with the column `file` first.\n" OBJECTS,
     .takes = JSON | MANY_FILES,
     .least = 1,
     .most = INT_MAX,
     .wants = "a LIST is wanted by ",
     .head = read_list_head,
     .of_file = read_list},
    {.name = "copy",
     .synopsis = "[--force] FILE DEST|[--force] FILE.. FOLDER/",
     .does = "the public copy: the file, with every octet of its values set to zero",
     .help = "A COPY DECODES AS A FIELD OF ZEROS in most packings: wind 0, pressure 0; in some\n"
             "as another constant, and where there is a bit map as a field without values. It\n"
             "is for indexes, and never for routing. `buttresk leaks` tells a copy from its\n"
             "original.\n"
             "\n"
             "Octets outside messages are set to zero as well. DEST appears whole or not at all;\n"
             "--force replaces an existing one. Into a FOLDER each copy has its file's name.\n",
     .takes = FORCE | MANY_FILES,
     .least = 2,
     .most = INT_MAX,
     .wants = "a FILE and a DEST are wanted by ",
     .way = COPY},
    {.name = "verify",
     .synopsis = "PUBLIC ORIGINAL",
     .does = "is PUBLIC exactly the public copy of ORIGINAL?",
     .help =
         "Status 0: yes. 1: no, and the first octet that differs is told. 2: there is no answer;\n"
         "an ORIGINAL that is refused has no public copy.\n",
     .least = 2,
     .most = 2,
     .wants = "a PUBLIC and an ORIGINAL are wanted by ",
     .way = VERIFY},
    {.name = "leaks",
     .synopsis = "FILE",
     .does = "does any octet that carries values, or is outside a message, differ from 0?",
     .help = "Status 0: yes, it leaks, and the first such octet is told. 1: no. 2: there is no\n"
             "answer; what a refused FILE carries is not known.\n",
     .least = 1,
     .most = 1,
     .wants = "one FILE is wanted by ",
     .way = LEAKS},
    {.name = NULL},
};

const struct verb *verb_of(const char *word)
{
    for (const struct verb *verb = verbs; verb->name != NULL; verb++) {
        if (strcmp(verb->name, word) == 0) {
            return verb;
        }
    }
    return NULL;
}
