/*
 * A file that is mapped to be read. The library's promises hold of octets that nobody changes
 * during a call; nothing keeps another process from changing them, so what was found is only told,
 * or put in place, if the file is afterwards still what it was.
 */
#ifndef SOURCE_H
#define SOURCE_H

#include <stdbool.h>
#include <stddef.h>
#include <stdint.h>
#include <sys/stat.h>
#include <time.h>

#include "say.h"

/* Octets of the longest file that the library walks. */
#define LONGEST_FILE ((size_t)1 << 40)

struct source {
    const char *name;      /* `-` for standard input */
    const uint8_t *octets; /* never null, also of an empty file */
    size_t size;
    bool too_long;         /* over the longest: it is not mapped, and `octets` holds none */
    int held;              /* standard input, which has no name to be asked by; else -1 */
    struct stat start;     /* of the file, when it was opened */
    struct timespec begun; /* when work on it began, by the monotonic clock */
};

/* Whether a name is that of standard input. */
bool is_standard_input(const char *name);

/* Each says its own reason, and answers false, if it does not succeed. To be closed also if it
   could not be opened. */
bool source_open(struct source *source, const char *name);

/* Whether the name still leads to the same file, of the same size and times. */
bool source_same(const struct source *source);

/* The same, and nothing is said: null, or the reason. */
const char *source_changed(const struct source *source);

/* Of a file that is too long: says its refusal, if it is still what it was. */
enum status source_refuse(const struct source *source);

/* Why a guarded call was left: an access to the source failed. */
void source_say_fault(const struct source *source);

void source_close(const struct source *source);

#endif
