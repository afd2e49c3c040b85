/* `copy`: the public copy of a file, which appears whole or not at all. */
#include <errno.h>
#include <string.h>

#include "beside.h"
#include "buttresk.h"
#include "commands.h"
#include "guard.h"
#include "holes.h"
#include "publish.h"
#include "source.h"
#include "watch.h"

static enum status system_failure(const char *name, int failure)
{
    errno = failure;
    return say_system(name);
}

static bool is_source(const struct source *source, const char *dest)
{
    struct stat found;
    return stat(dest, &found) == 0 && found.st_dev == source->start.st_dev &&
           found.st_ino == source->start.st_ino;
}

/* Whether something may be put at the destination. A device, a pipe or a link is never replaced. */
static enum status judge_dest(const struct source *source, const char *dest, bool force)
{
    struct stat found;
    if (is_source(source, dest)) {
        return say_failed(dest, "is the file that is to be copied");
    }
    if (lstat(dest, &found) != 0) {
        return errno == ENOENT && dest[0] != '\0' ? CLEAN : say_system(dest);
    }
    if (S_ISDIR(found.st_mode)) {
        return system_failure(dest, EISDIR);
    }
    if (!S_ISREG(found.st_mode)) {
        return say_failed(dest, "is not a regular file, and is not replaced");
    }
    return force ? CLEAN : say_failed(dest, "exists already; --force replaces it");
}

/* The copy is given up, its room is free again, and then it is told why. */
static enum status give_up(struct beside *beside, const struct source *source, const void *fault)
{
    bool own = room_has(&beside->room, fault);
    beside_close(beside);
    if (own) {
        return say_failed(beside->dest, "could not be written: its disk is full or fails");
    }
    source_say_fault(source);
    return FAILED;
}

static enum status publish_beside(struct publishing *p, struct beside *beside)
{
    if (!publish_watched(p)) {
        return give_up(beside, p->source, p->fault);
    }
    if (p->answer.outcome == BUTTRESK_DONE) {
        return CLEAN;
    }
    beside_close(beside);
    /* A refusal, too, is only told of a file that is still what it was. */
    return source_same(p->source) ? say_end(p->source->name, END_OF(p->answer)) : FAILED;
}

static void punch(void *with)
{
    const struct beside *beside = with;
    holes_punch(beside->fd, beside->room.octets, beside->room.size);
}

static enum status punch_watched(struct beside *beside, const struct source *source)
{
    struct watch watch;
    const void *fault;
    watch_start(&watch, source, "copying", false);
    watch_also(&watch, beside->room.octets, beside->room.size);
    bool ended = guarded(punch, beside, &fault);
    watch_stop(&watch);
    return ended ? CLEAN : give_up(beside, source, fault);
}

static enum status sync_watched(struct beside *beside, const struct source *source)
{
    struct watch watch;
    watch_start(&watch, source, "syncing", false);
    int failure = beside_sync(beside);
    watch_stop(&watch);
    return failure == 0 || beside_fails(beside, failure) ? CLEAN : FAILED;
}

static enum status copy_beside(struct publishing *p, struct beside *beside, bool force)
{
    enum status status = publish_beside(p, beside);
    if (status == CLEAN) {
        status = punch_watched(beside, p->source);
    }
    if (status == CLEAN) {
        status = sync_watched(beside, p->source);
    }
    if (status != CLEAN) {
        return status;
    }
    /* Last of all, so that as little time as can be lies between the look at the file and the copy
     * in place. What a copy in vain had taken of the disk is given back before it is said. */
    const char *reason = source_changed(p->source);
    if (reason != NULL) {
        beside_close(beside);
        return say_failed(p->source->name, reason);
    }
    return beside_put(beside, force) ? CLEAN : FAILED;
}

static enum status copy_source(const struct source *source, const char *dest, bool force)
{
    struct beside beside;
    struct publishing publishing = {.source = source, .room = &beside.room};
    enum status status = judge_dest(source, dest, force);
    if (status != CLEAN) {
        return status;
    }
    if (source->too_long) {
        return source_refuse(source);
    }
    status = beside_open(&beside, dest, source->size) ? copy_beside(&publishing, &beside, force)
                                                      : FAILED;
    beside_close(&beside);
    return status;
}

enum status copy_file(const char *name, const char *dest, bool force)
{
    struct source source;
    enum status status = source_open(&source, name) ? copy_source(&source, dest, force) : FAILED;
    source_close(&source);
    return status;
}
