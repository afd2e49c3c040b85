/*
 * Does one thing a number of times over a file in memory, so that the cost of once is the
 * difference between two runs.
 *
 *     PROGRAM FILE TIMES walk      the walk, with tables that hold all
 *     PROGRAM FILE TIMES copy      the public copy
 *     PROGRAM FILE TIMES inventory the inventory, in as many octets as the file has
 *     PROGRAM FILE TIMES list      the file is a list: its entries, in a table that holds all
 *     PROGRAM FILE TIMES memset    as many octets as the file has, set to zero
 *     PROGRAM FILE TIMES memcpy    as many octets as the file has, copied
 *
 * It prints what the tables and the copy hold, to hold programs against each other, and the octets
 * of stack that the work took. With the further word `memory` also the most memory that was
 * resident (KiB) when all that is lent was in place, and at the end: only then, since asking for it
 * takes now more instructions and now fewer.
 */
#include "drive.h"
#include <stdio.h>
#include <stdlib.h>
#include <string.h>
#include <ucontext.h>

enum { MOST_SECTIONS = 100000, SHORT_FILE = 86, STACK = 1 << 18, UNUSED = 0xa5 };

struct lent {
    uint8_t *file;
    size_t octets;
    uint8_t *dest;
    struct tables tables;
};

/* What is to be done, and what came of it; one, since the work is called on a stack of its own and
 * takes no words. */
static struct {
    const char *what;
    long times;
    struct lent lent;
    struct walked walked;
    uint64_t outcome;
} job;

static uint8_t stack[STACK];
static ucontext_t outside, inside;

static void stop(const char *what)
{
    perror(what);
    exit(2);
}

/* Memory with every page in place, so that none comes in while it is counted. */
static void *in_place(size_t bytes)
{
    void *memory = malloc(bytes + 1);
    if (memory == NULL) {
        stop("malloc");
    }
    memset(memory, UNUSED, bytes + 1);
    return memory;
}

static void read_file(struct lent *lent, const char *path)
{
    FILE *in = fopen(path, "rb");
    if (in == NULL || fseek(in, 0, SEEK_END) != 0) {
        stop(path);
    }
    lent->octets = (size_t)ftell(in);
    rewind(in);
    lent->file = in_place(lent->octets);
    if (fread(lent->file, 1, lent->octets, in) != lent->octets) {
        stop(path);
    }
    fclose(in);
}

/* Tables that none of the files here fills: a section has 4 octets at least, and none has as many
 * sections as are the most. */
static void lend_tables(struct lent *lent)
{
    size_t most = lent->octets / 4 < MOST_SECTIONS ? lent->octets / 4 : MOST_SECTIONS;
    lent->tables.row_numbers = most * ROW;
    lent->tables.line_numbers = most * LINE;
    lent->tables.rows = in_place(lent->tables.row_numbers * sizeof(uint64_t));
    lent->tables.lines = in_place(lent->tables.line_numbers * sizeof(uint64_t));
}

/* The most memory that was ever resident, KiB. Not getrusage's: that begins with what the caller of
 * this program had. */
static long resident(void)
{
    char line[256];
    long most = -1;
    FILE *status = fopen("/proc/self/status", "r");
    while (status != NULL && fgets(line, sizeof line, status) != NULL) {
        if (strncmp(line, "VmHWM:", 6) == 0) {
            most = atol(line + 6);
        }
    }
    if (most < 0) {
        stop("VmHWM of /proc/self/status");
    }
    fclose(status);
    return most;
}

/* Keeps the compiler from leaving out work whose result is not looked at. */
static void looked_at(void *memory)
{
    __asm__ volatile("" : : "r"(memory) : "memory");
}

static void once(const struct lent *lent)
{
    looked_at(lent->dest);
    if (strcmp(job.what, "walk") == 0) {
        job.walked = walk_file(lent->file, lent->octets, lent->tables);
        job.outcome = job.walked.outcome;
    } else if (strcmp(job.what, "copy") == 0) {
        job.outcome = copy_file(lent->file, lent->octets, lent->dest, lent->tables);
    } else if (strcmp(job.what, "inventory") == 0) {
        job.outcome = list_file(lent->file, lent->octets, lent->dest, lent->tables);
    } else if (strcmp(job.what, "list") == 0) {
        job.outcome = read_text(lent->file, lent->octets, lent->tables);
    } else if (strcmp(job.what, "memset") == 0) {
        memset(lent->dest, 0, lent->octets);
    } else {
        memcpy(lent->dest, lent->file, lent->octets);
    }
    looked_at(lent->dest);
}

static void work(void)
{
    for (long i = 0; i < job.times; i++) {
        once(&job.lent);
    }
}

/* Does the work on a stack whose every octet is known, and tells how many were used. */
static size_t stack_of_work(void)
{
    if (getcontext(&inside) != 0) {
        stop("getcontext");
    }
    inside.uc_stack.ss_sp = stack;
    inside.uc_stack.ss_size = STACK;
    inside.uc_link = &outside;
    makecontext(&inside, work, 0);
    if (swapcontext(&outside, &inside) != 0) {
        stop("swapcontext");
    }
    size_t unused = 0;
    while (unused < STACK && stack[unused] == UNUSED) {
        unused++;
    }
    return STACK - unused;
}

/* A sum that tells contents apart (FNV). */
static unsigned long long sum_of(const void *memory, size_t bytes)
{
    const uint8_t *octets = memory;
    uint64_t sum = 14695981039346656037u;
    for (size_t i = 0; i < bytes; i++) {
        sum = (sum ^ octets[i]) * 1099511628211u;
    }
    return sum;
}

static void print_results(void)
{
    const struct lent *lent = &job.lent;
    const struct walked *w = &job.walked;
    size_t tables = (lent->tables.row_numbers + lent->tables.line_numbers) * sizeof(uint64_t);
    printf("octets %zu\nlent %zu\noutcome %llu\n", lent->octets, 2 * lent->octets + tables,
           (unsigned long long)job.outcome);
    printf("sections %llu\nsubmessages %llu\nmessages %llu\n", (unsigned long long)w->sections,
           (unsigned long long)w->submessages, (unsigned long long)w->messages);
    printf("rows %016llx\n", sum_of(lent->tables.rows, w->sections * ROW * sizeof(uint64_t)));
    printf("lines %016llx\n", sum_of(lent->tables.lines, w->submessages * LINE * sizeof(uint64_t)));
    printf("dest %016llx\n", sum_of(lent->dest, lent->octets));
    printf("entries %016llx\n",
           strcmp(job.what, "list") == 0
               ? sum_of(lent->tables.lines, lent->tables.line_numbers * sizeof(uint64_t))
               : 0);
}

int main(int words, char **word)
{
    int measured = words == 5 && strcmp(word[4], "memory") == 0;
    if (words != 4 && !measured) {
        fprintf(stderr, "usage: %s FILE TIMES walk|copy|inventory|list|memset|memcpy [memory]\n",
                word[0]);
        return 2;
    }
    read_file(&job.lent, word[1]);
    job.lent.dest = in_place(job.lent.octets);
    lend_tables(&job.lent);
    job.times = atol(word[2]);
    job.what = word[3];
    /* Whatever is called first, on any file, brings in memory that is not its own: buffers, and an
     * emulator's translated code. */
    struct lent beginning = job.lent;
    beginning.octets = job.lent.octets < SHORT_FILE ? job.lent.octets : SHORT_FILE;
    once(&beginning);
    memset(stack, UNUSED, STACK);
    /* The first asking brings in memory too. */
    long before = measured ? (resident(), resident()) : 0;
    size_t stack_used = stack_of_work();
    long after = measured ? resident() : 0;
    print_results();
    printf("stack %zu\n", stack_used);
    if (measured) {
        printf("resident_before %ld\nresident_after %ld\n", before, after);
    }
    return 0;
}
