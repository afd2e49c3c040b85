/* A file without a name, for what has to be mapped and has no place of its own. */
#ifndef SPOOL_H
#define SPOOL_H

#include <stdbool.h>

#include "say.h"

/* In the folder that TMPDIR names, else in /var/tmp, else in /tmp. It is gone when it is closed.
   Says its reason, under `name`, and answers -1. */
int spool_open(const char *name);

/* The same, and nothing is said: errno has the reason. */
int spool_new(void);

/* All that can be read from `from`, behind what the spool has. Says its reason and answers false;
   the spool is then empty. */
bool spool_fill(int spool, int from, const char *name);

/* Says that there was no spooling for `name`, by the system's error number. Answers FAILED. */
enum status spool_failed(const char *name, int failure);

#endif
