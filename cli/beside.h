/*
 * A file that is written beside its destination and put there whole. Where the system can, it has
 * no name before it is whole, so that not even a kill leaves anything of it behind.
 */
#ifndef BESIDE_H
#define BESIDE_H

#include <stdbool.h>
#include <stddef.h>

#include "room.h"

enum { HIDDEN_ROOM = 48 };

struct beside {
    const char *dest;
    const char *base; /* its name in its folder */
    int folder;
    int fd;
    struct room room;
    char hidden[HIDDEN_ROOM]; /* the name before it is whole, empty where there is none */
};

/* Says its own reason, and answers false, if it does not succeed; so does beside_put. To be closed
   also if it could not be opened. */
bool beside_open(struct beside *b, const char *dest, size_t size);

/* The octets are on the disk, and can't be written any more: 0, or the system's error number, which
   is left to be said. */
int beside_sync(struct beside *b);

/* The file stands at its destination. An existing one is only replaced with `force`. */
bool beside_put(struct beside *b, bool force);

/* What was not put is gone, and its room is free. May be called again. */
void beside_close(struct beside *b);

/* Closes it, then says the system's reason: what is told may go to the disk that was full. Answers
   false. */
bool beside_fails(struct beside *b, int failure);

#endif
