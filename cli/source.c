#define _GNU_SOURCE /* MAP_NORESERVE */
#include "source.h"

#include <errno.h>
#include <fcntl.h>
#include <string.h>
#include <sys/mman.h>
#include <unistd.h>

#include "spool.h"

/* A pointer for no octets: there is nothing to be read at it. */
static const uint8_t none[1];

static bool fails(const char *name)
{
    say_system(name);
    return false;
}

static bool fails_as(const char *name, const char *reason)
{
    say_failed(name, reason);
    return false;
}

bool is_standard_input(const char *name)
{
    return strcmp(name, "-") == 0;
}

static bool is_regular(const struct source *source)
{
    if (S_ISDIR(source->start.st_mode)) {
        errno = EISDIR;
        return fails(source->name);
    }
    return S_ISREG(source->start.st_mode) ||
           fails_as(source->name, "not a regular file: it can't be mapped");
}

/* Its size comes first: a file that is too long is refused, whether or not it could be mapped. */
static bool mapped(struct source *source, int fd)
{
    if (fstat(fd, &source->start) != 0) {
        return fails(source->name);
    }
    if (!is_regular(source)) {
        return false;
    }
    source->size = (size_t)source->start.st_size;
    source->too_long = source->size > LONGEST_FILE;
    if (source->size == 0 || source->too_long) {
        return true;
    }
    /* Without reserving: an emulator would else want memory for all of it. */
    void *octets = mmap(NULL, source->size, PROT_READ, MAP_SHARED | MAP_NORESERVE, fd, 0);
    if (octets == MAP_FAILED) {
        return fails(source->name);
    }
    source->octets = octets;
    return true;
}

static bool map_named(struct source *source)
{
    /* O_NONBLOCK: the opening of a pipe would wait for its writer; of a regular file it changes
       nothing. */
    int fd = open(source->name, O_RDONLY | O_CLOEXEC | O_NOCTTY | O_NONBLOCK);
    if (fd < 0) {
        return fails(source->name);
    }
    bool done = mapped(source, fd);
    close(fd);
    return done;
}

/* A regular file that nothing was read of yet can be mapped as it is. */
static bool is_whole_file(int fd)
{
    struct stat found;
    return fstat(fd, &found) == 0 && S_ISREG(found.st_mode) && lseek(fd, 0, SEEK_CUR) == 0;
}

/* What else comes from a pipe or a terminal is first written to a file that nobody else has. */
static bool map_standard_input(struct source *source)
{
    if (is_whole_file(STDIN_FILENO)) {
        source->held = fcntl(STDIN_FILENO, F_DUPFD_CLOEXEC, 3);
        return source->held < 0 ? fails(source->name) : mapped(source, source->held);
    }
    source->held = spool_open(source->name);
    return source->held >= 0 && spool_fill(source->held, STDIN_FILENO, source->name) &&
           mapped(source, source->held);
}

bool source_open(struct source *source, const char *name)
{
    *source = (struct source){.name = name, .octets = none, .held = -1};
    clock_gettime(CLOCK_MONOTONIC, &source->begun);
    return is_standard_input(name) ? map_standard_input(source) : map_named(source);
}

static bool same_time(struct timespec a, struct timespec b)
{
    return a.tv_sec == b.tv_sec && a.tv_nsec == b.tv_nsec;
}

/* By name: a file that was replaced by another is left as it was, and only its name tells. */
static const char *lost(const struct source *source, struct stat *now)
{
    if (source->held >= 0) {
        return fstat(source->held, now) == 0 ? NULL : "could not be looked at again";
    }
    if (stat(source->name, now) != 0) {
        return "was moved or removed while it was read";
    }
    bool same = now->st_dev == source->start.st_dev && now->st_ino == source->start.st_ino;
    return same ? NULL : "was replaced by another file while it was read";
}

const char *source_changed(const struct source *source)
{
    struct stat now;
    const struct stat *start = &source->start;
    const char *reason = lost(source, &now);
    if (reason != NULL) {
        return reason;
    }
    if (now.st_size != start->st_size) {
        return now.st_size < start->st_size ? "was shortened while it was read"
                                            : "grew while it was read";
    }
    if (!same_time(now.st_mtim, start->st_mtim)) {
        return "was written to while it was read";
    }
    /* The time of a write can be set back; that of this setting can't. */
    return same_time(now.st_ctim, start->st_ctim)
               ? NULL
               : "was changed, or its mode, owner, links or times were, while it was read";
}

bool source_same(const struct source *source)
{
    const char *reason = source_changed(source);
    return reason == NULL || fails_as(source->name, reason);
}

enum status source_refuse(const struct source *source)
{
    return source_same(source) ? say_end(source->name, TOO_LONG) : FAILED;
}

void source_say_fault(const struct source *source)
{
    if (source_same(source)) {
        say_failed(source->name,
                   "its octets could not be read from the disk, or it was changed and restored");
    }
}

void source_close(const struct source *source)
{
    if (source->octets != none) {
        munmap((void *)(uintptr_t)source->octets, source->size);
    }
    if (source->held >= 0) {
        close(source->held);
    }
}
