/* A call of the library that is lent memory, made again with twice as much until what it has to
 * store fits. */
#ifndef GROWING_H
#define GROWING_H

#include <stdbool.h>
#include <stddef.h>

#include "source.h"

struct growing {
    const char *doing;                      /* a word such as "walking" */
    const char *no_memory;                  /* what is said where there is none */
    bool (*lend)(void *with, size_t times); /* whether memory is there, so many times what was lent
                                               first; the old content is not needed */
    void (*call)(void *with);
    bool (*fits)(const void *with);
};

/* Says its own reason, and answers false, if the call came to no answer that is still the source's.
   The calls that found no room cost together less than twice what the last one does. */
bool answered(const struct growing *growing, void *with, const struct source *source);

#endif
