#define _GNU_SOURCE /* O_TMPFILE, O_PATH, syncfs */
#include "beside.h"

#include <errno.h>
#include <fcntl.h>
#include <signal.h>
#include <stdio.h>
#include <stdlib.h>
#include <string.h>
#include <sys/stat.h>
#include <sys/wait.h>
#include <unistd.h>

#include "say.h"

/* Read for all, as the umask says: the copy is the public one. */
enum { MODE = 0666, TRIES = 100 };

/* What the handler of a stopped copy needs: the folder and the name that are to be gone. */
static volatile sig_atomic_t stray_folder = -1;
static char stray_name[HIDDEN_ROOM];

bool beside_fails(struct beside *b, int failure)
{
    beside_close(b);
    errno = failure;
    say_system(b->dest);
    return false;
}

static void on_stop(int number)
{
    if (stray_folder >= 0) {
        unlinkat(stray_folder, stray_name, 0);
    }
    signal(number, SIG_DFL);
    raise(number);
}

/* Whether a signal ends the command where nobody cares for it. SIGKILL can't be cared for, and
 * SIGBUS and SIGSEGV are guard.h's. */
static bool ends(int number)
{
    switch (number) {
    case SIGKILL:
    case SIGBUS:
    case SIGSEGV:
    case SIGSTOP:
    case SIGTSTP:
    case SIGTTIN:
    case SIGTTOU:
    case SIGCONT:
    case SIGCHLD:
    case SIGURG:
    case SIGWINCH:
        return false;
    default:
        return true;
    }
}

/* A file with a name of its own is not to stay when the copy is ended. A signal that is ignored
 * stays ignored. */
static void remove_when_stopped(const struct beside *b)
{
    struct sigaction before, action = {.sa_handler = on_stop};
    sigfillset(&action.sa_mask);
    memcpy(stray_name, b->hidden, HIDDEN_ROOM);
    stray_folder = b->folder;
    for (int number = 1; number <= SIGRTMAX; number++) {
        if (ends(number) && sigaction(number, NULL, &before) == 0 && before.sa_handler != SIG_IGN) {
            sigaction(number, &action, NULL);
        }
    }
}

static void next_hidden(char hidden[HIDDEN_ROOM], int attempt)
{
    snprintf(hidden, HIDDEN_ROOM, ".buttresk-%ld-%d", (long)getpid(), attempt);
}

static bool open_folder(struct beside *b)
{
    const char *slash = strrchr(b->dest, '/');
    size_t length = slash == NULL ? 0 : (size_t)(slash - b->dest) + 1;
    char *folder = slash == NULL ? strdup(".") : strndup(b->dest, length);
    if (folder == NULL) {
        return beside_fails(b, errno);
    }
    b->base = b->dest + length;
    /* O_PATH: a folder that may not be listed is good enough to write in. */
    b->folder = open(folder, O_PATH | O_DIRECTORY | O_CLOEXEC);
    int failure = errno;
    free(folder);
    return b->folder >= 0 || beside_fails(b, failure);
}

/* The path by which a file without a name is given one. */
static void path_of(int fd, char path[HIDDEN_ROOM])
{
    snprintf(path, HIDDEN_ROOM, "/proc/self/fd/%d", fd);
}

/* A file without a name, if this folder's file system can, and the name can be given later. */
static int open_nameless(const struct beside *b)
{
    char path[HIDDEN_ROOM];
    struct stat found;
    int fd = openat(b->folder, ".", O_TMPFILE | O_RDWR | O_CLOEXEC, MODE);
    if (fd < 0) {
        return -1;
    }
    path_of(fd, path);
    if (stat(path, &found) == 0) {
        return fd;
    }
    close(fd);
    return -1;
}

static int open_new(struct beside *b)
{
    for (int i = 0; i < TRIES; i++) {
        next_hidden(b->hidden, i);
        int fd = openat(b->folder, b->hidden, O_CREAT | O_EXCL | O_RDWR | O_CLOEXEC, MODE);
        if (fd >= 0 || errno != EEXIST) {
            return fd;
        }
    }
    return -1;
}

/* No signal comes between the making of the file and the care for its removal. */
static int open_hidden(struct beside *b)
{
    sigset_t all, before;
    sigfillset(&all);
    sigprocmask(SIG_SETMASK, &all, &before);
    int fd = open_new(b);
    if (fd >= 0) {
        remove_when_stopped(b);
    } else {
        b->hidden[0] = '\0';
    }
    int failure = errno;
    sigprocmask(SIG_SETMASK, &before, NULL);
    errno = failure;
    return fd;
}

static bool open_file(struct beside *b)
{
    b->fd = open_nameless(b);
    if (b->fd < 0) {
        b->fd = open_hidden(b);
    }
    return b->fd >= 0 || beside_fails(b, errno);
}

bool beside_open(struct beside *b, const char *dest, size_t size)
{
    *b = (struct beside){.dest = dest, .folder = -1, .fd = -1, .room = room_none()};
    if (!open_folder(b) || !open_file(b)) {
        return false;
    }
    int failure = room_take(&b->room, b->fd, size);
    return failure == 0 || beside_fails(b, failure);
}

int beside_sync(struct beside *b)
{
    room_unmap(&b->room);
    return fsync(b->fd) == 0 ? 0 : errno;
}

/* Answers 0 or an error number, as a child can. */
static int link_and_rename(const struct beside *b, const char *path)
{
    char hidden[HIDDEN_ROOM];
    for (int i = 0; i < TRIES; i++) {
        next_hidden(hidden, i);
        if (linkat(AT_FDCWD, path, b->folder, hidden, AT_SYMLINK_FOLLOW) == 0) {
            if (renameat(b->folder, hidden, b->folder, b->base) == 0) {
                return 0;
            }
            int failure = errno;
            unlinkat(b->folder, hidden, 0);
            return failure;
        }
        if (errno != EEXIST) {
            break;
        }
    }
    return errno;
}

static int status_of(pid_t child)
{
    int status;
    while (waitpid(child, &status, 0) < 0) {
        if (errno != EINTR) {
            return errno;
        }
    }
    return WIFEXITED(status) ? WEXITSTATUS(status) : EINTR;
}

/*
 * A file without a name can't be put over another in one call: for an instant it has a name of its
 * own. A child does both calls, out of reach of what is sent to the command or its group, so that a
 * kill of the command at that instant leaves nothing behind either.
 */
static int replace(const struct beside *b, const char *path)
{
    sigset_t all, before;
    sigfillset(&all);
    sigprocmask(SIG_SETMASK, &all, &before);
    pid_t child = fork();
    if (child == 0) {
        setpgid(0, 0);
        _exit(link_and_rename(b, path));
    }
    int failure = child < 0 ? link_and_rename(b, path) : status_of(child);
    sigprocmask(SIG_SETMASK, &before, NULL);
    return failure;
}

static int put_nameless(const struct beside *b, bool force)
{
    char path[HIDDEN_ROOM];
    path_of(b->fd, path);
    if (linkat(AT_FDCWD, path, b->folder, b->base, AT_SYMLINK_FOLLOW) == 0) {
        return 0;
    }
    return errno == EEXIST && force ? replace(b, path) : errno;
}

static bool is_absent(const struct beside *b)
{
    struct stat found;
    if (fstatat(b->folder, b->base, &found, AT_SYMLINK_NOFOLLOW) == 0) {
        errno = EEXIST;
        return false;
    }
    return errno == ENOENT;
}

/* A link is never put over an existing file. Where the file system has no links, the look just
 * before has to do. */
static int put_hidden(struct beside *b, bool force)
{
    if (!force && linkat(b->folder, b->hidden, b->folder, b->base, 0) == 0) {
        return 0;
    }
    if (!force && (errno == EEXIST || !is_absent(b))) {
        return errno;
    }
    if (renameat(b->folder, b->hidden, b->folder, b->base) != 0) {
        return errno;
    }
    stray_folder = -1;
    b->hidden[0] = '\0';
    return 0;
}

/* Some file systems have no syncing of a folder, and say EINVAL. */
static int sync_opened(int folder)
{
    int failure = fsync(folder) == 0 || errno == EINVAL ? 0 : errno;
    close(folder);
    return failure;
}

/* A folder that may not be listed can't be opened to be synced: then all of its file system is. */
static int sync_folder(const struct beside *b)
{
    int folder = openat(b->folder, ".", O_RDONLY | O_DIRECTORY | O_CLOEXEC);
    if (folder >= 0) {
        return sync_opened(folder);
    }
    return syncfs(b->fd) == 0 ? 0 : errno;
}

bool beside_put(struct beside *b, bool force)
{
    int failure = b->hidden[0] == '\0' ? put_nameless(b, force) : put_hidden(b, force);
    if (failure != 0) {
        return beside_fails(b, failure);
    }
    failure = sync_folder(b);
    if (failure != 0) {
        say_failed(b->dest, "is in place and whole, but its folder could not be synced");
        return beside_fails(b, failure);
    }
    return true;
}

static void close_one(int *fd)
{
    if (*fd >= 0) {
        close(*fd);
    }
    *fd = -1;
}

void beside_close(struct beside *b)
{
    room_unmap(&b->room);
    if (b->hidden[0] != '\0') {
        unlinkat(b->folder, b->hidden, 0);
        stray_folder = -1;
        b->hidden[0] = '\0';
    }
    close_one(&b->fd);
    close_one(&b->folder);
}
