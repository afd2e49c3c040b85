/* Where copies go: each to a name of its own, or all of them into one folder. */
#ifndef INTO_H
#define INTO_H

#include <stdbool.h>

struct into {
    char **dests; /* one for each file, in their order */
    int count;
};

/* The names but the last are files; the last is DEST, or a folder, which it has to be where
   `folder` says so. There are two names at least, with a folder one. Says its own reason, and
   answers false, if not each file has a place of its own. To be freed either way. */
bool into_find(struct into *into, char **names, int count, bool folder);

void into_free(struct into *into);

#endif
