#define _GNU_SOURCE /* fallocate */
#include "holes.h"

#include <fcntl.h>
#include <stdbool.h>
#include <string.h>
#include <sys/stat.h>

/* A block is all zero if its first octet is, and each equals the one behind it. */
static bool is_zero(const uint8_t *block, size_t size)
{
    return block[0] == 0 && memcmp(block, block + 1, size - 1) == 0;
}

/* Where a run of blocks ends of which each is all zero, or none is. */
static size_t end_of_run(const uint8_t *octets, size_t from, size_t to, size_t block, bool zero)
{
    while (from < to && is_zero(octets + from, block) == zero) {
        from += block;
    }
    return from;
}

/* Whether the file system has holes, as far as was seen. */
static bool punch(int fd, size_t from, size_t to)
{
    return from == to || fallocate(fd, FALLOC_FL_PUNCH_HOLE | FALLOC_FL_KEEP_SIZE, (off_t)from,
                                   (off_t)(to - from)) == 0;
}

void holes_punch(int fd, const uint8_t *octets, size_t size)
{
    struct stat found;
    if (fstat(fd, &found) != 0 || found.st_blksize <= 0) {
        return;
    }
    size_t block = (size_t)found.st_blksize, whole = size - size % block;
    size_t start, end = 0;
    do {
        start = end_of_run(octets, end, whole, block, false);
        end = end_of_run(octets, start, whole, block, true);
    } while (punch(fd, start, end) && end < whole);
}
