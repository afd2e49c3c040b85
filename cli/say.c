/* What the command tells on standard error. The words of an outcome are the header's. */
#include "say.h"

#include <errno.h>
#include <stdio.h>
#include <string.h>

#include "text.h"

static const struct buttresk_outcome_words unknown = {
    "unknown", "a number that this command does not know", NULL};

static const struct buttresk_outcome_words *words_of(uint64_t outcome)
{
    const struct buttresk_outcome_words *words = buttresk_words_of_outcome(outcome);
    return words != NULL ? words : &unknown;
}

const char *outcome_name(uint64_t outcome)
{
    return words_of(outcome)->name;
}

const char *outcome_means(uint64_t outcome)
{
    return words_of(outcome)->means;
}

/* The reason that was said last. */
static char failure[256];

const char *last_failure(void)
{
    return failure;
}

static void start(const char *name)
{
    fputs("buttresk: ", stderr);
    put_name(stderr, name);
    fputs(": ", stderr);
}

enum status say_failed(const char *name, const char *reason)
{
    snprintf(failure, sizeof failure, "%s", reason);
    start(name);
    fprintf(stderr, "%s\n", reason);
    return FAILED;
}

enum status say_system(const char *name)
{
    return say_failed(name, strerror(errno));
}

/* The library never counts 0 here: of a file that is cut an octet is missing at least. */
static void put_missing(uint64_t octets)
{
    fprintf(stderr, " (%ju %s missing)", (uintmax_t)octets,
            octets == 1 ? "octet is" : "octets are");
}

static void put_detail(uint64_t outcome, uint64_t detail)
{
    const char *is = words_of(outcome)->detail;
    if (outcome == BUTTRESK_CUT) {
        put_missing(detail);
    } else if (is != NULL) {
        fprintf(stderr, " (%s)", is);
    }
}

enum status say_end(const char *name, struct end end)
{
    const struct buttresk_outcome_words *words = words_of(end.outcome);
    if (end.outcome == BUTTRESK_DONE) {
        return CLEAN;
    }
    start(name);
    fprintf(stderr, "refused by %ju (%s): %s; place %ju, offset %ju, detail %ju",
            (uintmax_t)end.outcome, words->name, words->means, (uintmax_t)end.place,
            (uintmax_t)end.offset, (uintmax_t)end.detail);
    put_detail(end.outcome, end.detail);
    putc('\n', stderr);
    return REFUSED;
}

void say_rest_starts(const char *name, uint64_t octet)
{
    start(name);
    fprintf(stderr, "a re-request has to start at octet %ju, counted from 0, where the file ends\n",
            (uintmax_t)octet);
}

static const char *octets_stand(uint64_t octets)
{
    return octets == 1 ? "octet stands" : "octets stand";
}

void say_outside(const char *name, uint64_t octets, bool walked_all)
{
    start(name);
    fprintf(stderr, "%ju %s outside messages%s\n", (uintmax_t)octets, octets_stand(octets),
            walked_all ? "" : ", before the refusal");
}

void say_no_message(const char *name, uint64_t octets)
{
    start(name);
    if (octets == 0) {
        fputs("there is no message: the file is empty\n", stderr);
    } else {
        fprintf(stderr, "there is no message: %ju %s outside messages\n", (uintmax_t)octets,
                octets_stand(octets));
    }
}
