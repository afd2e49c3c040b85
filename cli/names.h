/* The names of the files that are asked about: words, or a list in a file. */
#ifndef NAMES_H
#define NAMES_H

#include <stdbool.h>

struct names {
    char **all;
    int count;
    char *octets; /* of a list: what the names stand in */
};

/* The names of a list, each ended by a 0 octet, then those given; the list `-` is standard input.
   Without a list (null) those given. Says its own reason, and answers false. To be freed either
   way. */
bool names_gather(struct names *names, const char *list, char **given, int count);

void names_free(struct names *names);

#endif
