#define _GNU_SOURCE /* MAP_ANONYMOUS, MAP_NORESERVE */
#include "room.h"

#include <errno.h>
#include <fcntl.h>
#include <sys/mman.h>
#include <sys/statvfs.h>
#include <unistd.h>

/* A pointer for no octets: there is nothing to be written at it. */
static uint8_t none[1];

/*
 * Reserved behind the map. The library never leaves what it is lent as long as nobody changes the
 * file that it reads; where another process writes to that file between two looks at it, a section
 * may seem to reach further, by under 2^32 octets. A write there then fails, where guard.h catches
 * it, and never comes to memory of another use. A read that goes astray harms nothing: what comes
 * of it is not believed.
 */
static const size_t margin = ((size_t)1 << 32) + ((size_t)1 << 20);

struct room room_none(void)
{
    return (struct room){.octets = none};
}

/* Whether the disk may have so much room: who asks first takes none of it in vain. What is kept for
 * root counts for root. Some file systems tell no size at all: there only the taking tells. */
static bool may_be_free(int fd, size_t size)
{
    struct statvfs found;
    if (fstatvfs(fd, &found) != 0 || found.f_blocks == 0 || found.f_frsize == 0) {
        return true;
    }
    size_t wanted = size / found.f_frsize + (size % found.f_frsize != 0);
    return wanted <= (geteuid() == 0 ? found.f_bfree : found.f_bavail);
}

static int allocate(int fd, size_t size)
{
    int failure;
    if (!may_be_free(fd, size)) {
        return ENOSPC;
    }
    do {
        failure = posix_fallocate(fd, 0, (off_t)size);
    } while (failure == EINTR);
    return failure;
}

/* The file's octets to be written, or null. */
static void *map_with_margin(int fd, size_t size)
{
    void *room =
        mmap(NULL, size + margin, PROT_NONE, MAP_PRIVATE | MAP_ANONYMOUS | MAP_NORESERVE, -1, 0);
    if (room == MAP_FAILED) {
        return NULL;
    }
    void *octets =
        mmap(room, size, PROT_READ | PROT_WRITE, MAP_SHARED | MAP_FIXED | MAP_NORESERVE, fd, 0);
    if (octets == MAP_FAILED) {
        int failure = errno;
        munmap(room, size + margin);
        errno = failure;
        return NULL;
    }
    return octets;
}

static int allocate_and_map(struct room *room, int fd, size_t size)
{
    int failure = allocate(fd, size);
    if (failure != 0) {
        return failure;
    }
    void *octets = map_with_margin(fd, size);
    if (octets == NULL) {
        return errno;
    }
    *room = (struct room){octets, size};
    return 0;
}

int room_take(struct room *room, int fd, size_t size)
{
    *room = room_none();
    int failure = size == 0 ? 0 : allocate_and_map(room, fd, size);
    if (failure != 0) {
        /* What a file system had found before it found no more, it leaves to the file. If that
         * can't be cut the file's closing frees it. */
        (void)!ftruncate(fd, 0);
    }
    return failure;
}

bool room_has(const struct room *room, const void *address)
{
    uintptr_t at = (uintptr_t)address, from = (uintptr_t)room->octets;
    return at >= from && at - from < room->size;
}

void room_unmap(struct room *room)
{
    if (room->size != 0) {
        munmap(room->octets, room->size + margin);
    }
    *room = room_none();
}
