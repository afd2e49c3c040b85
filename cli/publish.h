/* The library's public copy of a mapped file, in room that was taken for it. */
#ifndef PUBLISH_H
#define PUBLISH_H

#include <stdbool.h>

#include "buttresk.h"
#include "room.h"
#include "source.h"

struct publishing {
    const struct source *source;
    const struct room *room;
    struct buttresk_store_answer answer;
    const void *fault; /* the address that could not be reached, where the call was left */
};

/* Whether the call came to its answer. Nothing is said: room that was taken is to be given back
   before anything is. The answer counts if the source is still what it was. */
bool publish_watched(struct publishing *publishing);

#endif
