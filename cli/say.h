/* What the command tells on standard error, and the statuses that it ends with. */
#ifndef SAY_H
#define SAY_H

#include <stdbool.h>
#include <stdint.h>

#include "buttresk.h"

/* Of several files the highest counts. */
enum status { CLEAN = 0, REFUSED = 1, FAILED = 2 };

/* How a call of the library ended: the four numbers that each of its answers has. */
struct end {
    uint64_t outcome;
    uint64_t place;
    uint64_t offset;
    uint64_t detail;
};

/* Of any answer of the library. */
#define END_OF(answer)                                                                             \
    ((struct end){(answer).outcome, (answer).place, (answer).offset, (answer).detail})

/* Of a file that is not even mapped. */
#define TOO_LONG ((struct end){.outcome = BUTTRESK_FILE_TOO_LONG})

/* Answers FAILED, so that a caller can end in what it says. */
enum status say_failed(const char *name, const char *reason);

/* The reason that was said last, of whatever name. */
const char *last_failure(void);

/* The words of an outcome: its name, and what it means. */
const char *outcome_name(uint64_t outcome);
const char *outcome_means(uint64_t outcome);

/* Says a refusal, and answers REFUSED; at a clean end it says nothing, and answers CLEAN. */
enum status say_end(const char *name, struct end end);

/* Of a file that is cut: the first octet that is missing. Not how many make it whole, since behind
   a header its payload may be cut too. */
void say_rest_starts(const char *name, uint64_t octet);

/* Octets that no message holds; of a refused file those before the refusal. */
void say_outside(const char *name, uint64_t octets, bool walked_all);

/* Of a clean file that has none: a page, a compressed file, an empty one. */
void say_no_message(const char *name, uint64_t octets);

/* The reason is the system's, from errno. */
enum status say_system(const char *name);

#endif
