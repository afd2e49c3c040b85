/*
 * A thread beside a long call. It hands the pages of mapped files back to the system as they pile
 * up, so that the memory touched does not grow with the file, and after a second it shows on a
 * terminal what is being done. The octets themselves it neither reads nor writes.
 */
#ifndef WATCH_H
#define WATCH_H

#include <pthread.h>
#include <stdbool.h>
#include <stddef.h>

#include "source.h"

struct watch {
    const struct source *source;
    const char *doing;
    const void *also; /* a second map */
    size_t also_size;
    bool quiet;
    bool over;
    bool runs;
    int shown; /* characters of the line on the terminal */
    pthread_t thread;
    pthread_mutex_t lock;
    pthread_cond_t wake;
};

/* `doing` is a word such as "walking"; a quiet watch shows nothing. If no thread can be had the
 * work goes on without. */
void watch_start(struct watch *watch, const struct source *source, const char *doing, bool quiet);

/* A second map to be watched; of no octets: none. */
void watch_also(struct watch *watch, const void *octets, size_t size);

/* Takes the line off the terminal. Before any other output, and before a watched map is unmapped.
 */
void watch_stop(struct watch *watch);

#endif
