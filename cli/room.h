/*
 * Room for octets that the library writes: taken of the disk before the first of them is written,
 * and mapped.
 */
#ifndef ROOM_H
#define ROOM_H

#include <stdbool.h>
#include <stddef.h>
#include <stdint.h>

struct room {
    uint8_t *octets; /* to be written; never null, also where there are none */
    size_t size;
};

/* Of no octets, which nothing has to be taken for. */
struct room room_none(void);

/* The file, which is empty, has so many octets from now on, and all their room on the disk: a disk
   that is full is told here, and not by a fault in the middle of a call. Answers 0, or the system's
   error number; then nothing stays taken, so that the reason can be told on the same disk. */
int room_take(struct room *room, int fd, size_t size);

/* Whether a fault was at these octets, and not at those that are read. */
bool room_has(const struct room *room, const void *address);

/* The octets stay with the file, and can't be written any more. */
void room_unmap(struct room *room);

#endif
