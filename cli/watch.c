#define _GNU_SOURCE /* madvise */
#include "watch.h"

#include <signal.h>
#include <stdint.h>
#include <stdio.h>
#include <string.h>
#include <sys/mman.h>
#include <unistd.h>

#include "text.h"

/* Memory that is read at some 3 GB in a second comes to 15 MB at this pace. */
enum {
    PACE_MILLISECONDS = 5,
    SHOWN_AFTER_MILLISECONDS = 1000,
    SHOWN_EACH_MILLISECONDS = 250,
    NAME_WIDTH = 40
};

static long elapsed(const struct watch *watch)
{
    struct timespec now;
    clock_gettime(CLOCK_MONOTONIC, &now);
    const struct timespec *begun = &watch->source->begun;
    return (now.tv_sec - begun->tv_sec) * 1000 + (now.tv_nsec - begun->tv_nsec) / 1000000;
}

static struct timespec next_turn(void)
{
    struct timespec turn;
    clock_gettime(CLOCK_MONOTONIC, &turn);
    turn.tv_nsec += PACE_MILLISECONDS * 1000000L;
    if (turn.tv_nsec >= 1000000000L) {
        turn.tv_sec++;
        turn.tv_nsec -= 1000000000L;
    }
    return turn;
}

/* Of a mapped file no octet is lost by this: the next access finds the page again, and written
 * pages stay with the file. */
static void hand_back_pages(const void *map, size_t size)
{
    if (size != 0) {
        madvise((void *)(uintptr_t)map, size, MADV_DONTNEED);
    }
}

/* The end of a name tells most. It is for the eye alone, so what would spoil the line, or is no
   part of a character, becomes a question mark. */
static void label_of(const char *name, char label[NAME_WIDTH + 1])
{
    size_t length = strlen(name), put = 0;
    const char *from = length > NAME_WIDTH ? name + length - NAME_WIDTH : name;
    const unsigned char *at = (const unsigned char *)from;
    while (*at != '\0') {
        int octets = character(at);
        bool shows = !is_control(at, octets) && (octets != 0 || *at < 0x80);
        octets = octets == 0 ? 1 : octets;
        if (shows) {
            memcpy(label + put, at, (size_t)octets);
        } else {
            label[put] = '?';
        }
        put += shows ? (size_t)octets : 1;
        at += octets;
    }
    label[put] = '\0';
}

static void show(struct watch *watch)
{
    char label[NAME_WIDTH + 1];
    label_of(watch->source->name, label);
    int before = watch->shown;
    watch->shown =
        fprintf(stderr, "\rbuttresk: %s: %s, %ld s", label, watch->doing, elapsed(watch) / 1000);
    if (watch->shown < before) {
        fprintf(stderr, "%*s", before - watch->shown, "");
    }
    fflush(stderr);
}

static void *run(void *with)
{
    struct watch *watch = with;
    bool shows = !watch->quiet && isatty(STDERR_FILENO) == 1;
    long shown_at = SHOWN_AFTER_MILLISECONDS;
    pthread_mutex_lock(&watch->lock);
    while (!watch->over) {
        struct timespec turn = next_turn();
        pthread_cond_timedwait(&watch->wake, &watch->lock, &turn);
        hand_back_pages(watch->source->octets, watch->source->size);
        hand_back_pages(watch->also, watch->also_size);
        if (shows && !watch->over && elapsed(watch) >= shown_at) {
            show(watch);
            shown_at = elapsed(watch) + SHOWN_EACH_MILLISECONDS;
        }
    }
    pthread_mutex_unlock(&watch->lock);
    return NULL;
}

static void set_up(struct watch *watch)
{
    pthread_condattr_t monotonic;
    pthread_condattr_init(&monotonic);
    pthread_condattr_setclock(&monotonic, CLOCK_MONOTONIC);
    pthread_cond_init(&watch->wake, &monotonic);
    pthread_condattr_destroy(&monotonic);
    pthread_mutex_init(&watch->lock, NULL);
}

void watch_start(struct watch *watch, const struct source *source, const char *doing, bool quiet)
{
    sigset_t all, before;
    *watch = (struct watch){.source = source, .doing = doing, .quiet = quiet};
    set_up(watch);
    /* Signals are for the thread that does the work. */
    sigfillset(&all);
    pthread_sigmask(SIG_SETMASK, &all, &before);
    watch->runs = pthread_create(&watch->thread, NULL, run, watch) == 0;
    pthread_sigmask(SIG_SETMASK, &before, NULL);
}

void watch_also(struct watch *watch, const void *octets, size_t size)
{
    pthread_mutex_lock(&watch->lock);
    watch->also = octets;
    watch->also_size = size;
    pthread_mutex_unlock(&watch->lock);
}

void watch_stop(struct watch *watch)
{
    pthread_mutex_lock(&watch->lock);
    watch->over = true;
    pthread_cond_signal(&watch->wake);
    pthread_mutex_unlock(&watch->lock);
    if (watch->runs) {
        pthread_join(watch->thread, NULL);
    }
    if (watch->shown > 0) {
        fprintf(stderr, "\r%*s\r", watch->shown, "");
        fflush(stderr);
    }
    pthread_cond_destroy(&watch->wake);
    pthread_mutex_destroy(&watch->lock);
}
