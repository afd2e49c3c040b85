#define _GNU_SOURCE /* O_TMPFILE, mkostemp */
#include "spool.h"

#include <errno.h>
#include <fcntl.h>
#include <signal.h>
#include <stdio.h>
#include <stdlib.h>
#include <string.h>
#include <unistd.h>

/* For nobody else: what is spooled may be what is not public. */
enum { MODE = 0600, PART = 1 << 16 };

enum status spool_failed(const char *name, int failure)
{
    char reason[160];
    snprintf(reason, sizeof reason, "could not be spooled in TMPDIR, /var/tmp or /tmp: %s",
             strerror(failure));
    return say_failed(name, reason);
}

/* Where a file system has none without a name, it has one for an instant, out of reach of every
 * signal that can wait. */
static int open_unlinked(const char *folder)
{
    char path[4096];
    sigset_t all, before;
    if (snprintf(path, sizeof path, "%s/.buttresk-XXXXXX", folder) >= (int)sizeof path) {
        errno = ENAMETOOLONG;
        return -1;
    }
    sigfillset(&all);
    sigprocmask(SIG_SETMASK, &all, &before);
    int fd = mkostemp(path, O_CLOEXEC);
    int failure = errno;
    if (fd >= 0) {
        unlink(path);
    }
    sigprocmask(SIG_SETMASK, &before, NULL);
    errno = failure;
    return fd;
}

static int open_in(const char *folder)
{
    int fd = open(folder, O_TMPFILE | O_RDWR | O_CLOEXEC | O_EXCL, MODE);
    return fd >= 0 ? fd : open_unlinked(folder);
}

int spool_new(void)
{
    const char *wanted = getenv("TMPDIR");
    int fd = wanted == NULL || wanted[0] == '\0' ? -1 : open_in(wanted);
    fd = fd >= 0 ? fd : open_in("/var/tmp");
    return fd >= 0 ? fd : open_in("/tmp");
}

int spool_open(const char *name)
{
    int fd = spool_new();
    if (fd < 0) {
        spool_failed(name, errno);
    }
    return fd;
}

/* Whether all of them were taken; errno says why not. */
static bool write_all(int spool, const char *octets, size_t size)
{
    while (size > 0) {
        ssize_t taken = write(spool, octets, size);
        if (taken < 0 && errno != EINTR) {
            return false;
        }
        octets += taken < 0 ? 0 : taken;
        size -= taken < 0 ? 0 : (size_t)taken;
    }
    return true;
}

/* How many octets came, 0 at the end, -1 where errno says why not. */
static ssize_t read_part(int from, char part[PART])
{
    ssize_t came;
    do {
        came = read(from, part, PART);
    } while (came < 0 && errno == EINTR);
    return came;
}

/* Room that was taken is given back before anything is said: it may be said on the same disk. */
static int give_back(int spool)
{
    int failure = errno;
    (void)!ftruncate(spool, 0);
    return failure;
}

bool spool_fill(int spool, int from, const char *name)
{
    static char part[PART];
    ssize_t came;
    while ((came = read_part(from, part)) > 0) {
        if (!write_all(spool, part, (size_t)came)) {
            spool_failed(name, give_back(spool));
            return false;
        }
    }
    if (came == 0) {
        return true;
    }
    errno = give_back(spool);
    say_system(name);
    return false;
}
