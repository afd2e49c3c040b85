/* The verbs of the command: what each takes, and its help. */
#ifndef VERBS_H
#define VERBS_H

#include "commands.h"
#include "options.h"

/* What is done with the names: each file by itself, a file with its destination, or two files, or
   one. */
enum way { EACH, COPY, VERIFY, LEAKS };

struct verb {
    const char *name;
    const char *synopsis; /* what stands behind its name, lines of it parted by `|` */
    const char *does;     /* in a few words */
    const char *help;
    unsigned takes; /* bits of `enum option` */
    int least;      /* names */
    int most;
    const char *wants; /* which names, in words */
    enum way way;
    /* of EACH: what is printed once, before all files (null if nothing is), and of one file */
    void (*head)(const struct asked *);
    enum status (*of_file)(const char *name, const struct asked *);
};

/* Ends in one without a name. */
extern const struct verb verbs[];

/* Null if there is no such verb. */
const struct verb *verb_of(const char *word);

#endif
