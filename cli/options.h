/* The command's arguments. */
#ifndef OPTIONS_H
#define OPTIONS_H

#include <stdbool.h>

/* One bit each, so that a verb can say which it takes. */
enum option {
    HELP = 1,
    VERSION = 2,
    JSON = 4,
    STRICT = 8,
    FORCE = 16,
    JOBS = 32,
    FILES0_FROM = 64,
    AS_CRATE = 128
};

struct options {
    unsigned given;     /* bits of `enum option` */
    int jobs;           /* files at once; 1 if it is not said */
    const char *files0; /* the list that names are in; null if there is none */
    const char *verb;   /* null if there is none */
    char **names;       /* the words behind it */
    int count;
    const char *wrong; /* what is wrong with the arguments, and with which word; null if nothing */
    const char *wrong_word;
};

struct options read_options(int argc, char **argv);

/* The longest spelling of an option that is among these bits; null for none. */
const char *option_word(unsigned bits);

#endif
