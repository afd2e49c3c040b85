#define _GNU_SOURCE /* prctl */
#include "jobs.h"

#include <errno.h>
#include <signal.h>
#include <stdio.h>
#include <stdlib.h>
#include <sys/prctl.h>
#include <sys/resource.h>
#include <sys/types.h>
#include <sys/wait.h>
#include <unistd.h>

#include "out.h"
#include "spool.h"

/* LOST is the status of a child whose words could not be kept. */
enum { LOST = FAILED + 1, OWN_DESCRIPTORS = 16 };

/* A process that works on a file, and where it prints and tells. */
struct child {
    pid_t pid;   /* 0 where there is none, -1 where it could not be started */
    int failure; /* the system's reason for that */
    int output;
    int errors;
};

static enum status highest(enum status a, enum status b)
{
    return a > b ? a : b;
}

static enum status one_after_another(const struct work *work)
{
    enum status status = CLEAN;
    for (int i = 0; i < work->count && !ferror(stdout); i++) {
        status = highest(status, work->on(i, work->with));
    }
    return status;
}

/* Whether all that was said there stands in the file. */
static bool is_kept(FILE *file)
{
    return fflush(file) == 0 && !ferror(file);
}

/* It is not to outlive the command that asked, and that may be over already. */
static void work_in_child(const struct work *work, int which, const struct child *child,
                          pid_t parent)
{
    prctl(PR_SET_PDEATHSIG, SIGTERM);
    if (getppid() != parent) {
        _exit(FAILED);
    }
    dup2(child->output, STDOUT_FILENO);
    dup2(child->errors, STDERR_FILENO);
    int status = (int)work->on(which, work->with);
    bool printed = is_kept(stdout), told = is_kept(stderr);
    _exit(printed && told ? status : LOST);
}

static void start(struct child *child, const struct work *work, int which)
{
    pid_t parent = getpid();
    *child = (struct child){.pid = -1, .output = spool_new(), .errors = -1};
    child->errors = child->output < 0 ? -1 : spool_new();
    if (child->errors >= 0) {
        /* What is still to be said would else be said by the child as well. */
        fflush(stderr);
        child->pid = output_taken() ? fork() : -1;
    }
    child->failure = errno;
    if (child->pid == 0) {
        work_in_child(work, which, child, parent);
    }
}

/* The status of a child that came to its end, else LOST, whose reason is said. */
static int status_of(const struct child *child, const char *name)
{
    int status;
    if (child->pid < 0) {
        errno = child->failure;
        say_system(name);
        return LOST;
    }
    while (waitpid(child->pid, &status, 0) < 0) {
        if (errno != EINTR) {
            say_system(name);
            return LOST;
        }
    }
    if (WIFEXITED(status) && WEXITSTATUS(status) != LOST) {
        return WEXITSTATUS(status);
    }
    say_failed(name, WIFEXITED(status) ? "what was found could not be kept: the disk of the file "
                                         "for it is full or fails"
                                       : "the process that worked on it was ended by a signal");
    return LOST;
}

/* What a child left, to where it belongs. */
static void pass_on(int from, FILE *to)
{
    char buffer[1 << 14];
    ssize_t got = 0;
    lseek(from, 0, SEEK_SET);
    while ((got = read(from, buffer, sizeof buffer)) > 0) {
        if (to == stderr) {
            fwrite(buffer, 1, (size_t)got, stderr);
        } else if (!print_all(buffer, (size_t)got)) {
            return;
        }
    }
}

static void let_go(struct child *child)
{
    if (child->output >= 0) {
        close(child->output);
    }
    if (child->errors >= 0) {
        close(child->errors);
    }
}

/* Nobody takes the output any more, so nobody waits for the rest of it. */
static void give_up(const struct child *child)
{
    if (child->pid > 0) {
        kill(child->pid, SIGTERM);
        waitpid(child->pid, NULL, 0);
    }
}

/* Of a file whose words are lost none is passed on, not even the first of them. */
static enum status finish(const struct child *child, const struct work *work, int which)
{
    if (ferror(stdout)) {
        give_up(child);
        return FAILED;
    }
    int status = status_of(child, work->names[which]);
    if (status == LOST) {
        return work->lost(which, work->with);
    }
    pass_on(child->output, stdout);
    bool taken = output_taken();
    pass_on(child->errors, stderr);
    return taken ? (enum status)status : FAILED;
}

/* A window of children goes over the files: the oldest is waited for before the next is started. */
static enum status several_at_once(const struct work *work, struct child *children, int jobs)
{
    enum status status = CLEAN;
    for (int i = 0; i < work->count + jobs; i++) {
        struct child *child = &children[i % jobs];
        if (i >= jobs && child->pid != 0) {
            status = highest(status, finish(child, work, i - jobs));
            let_go(child);
        }
        child->pid = 0;
        if (i < work->count && !ferror(stdout)) {
            start(child, work, i);
        }
    }
    return status;
}

/* A child takes two descriptors, and the command needs some of its own. */
static int possible_jobs(int jobs)
{
    struct rlimit limit;
    if (getrlimit(RLIMIT_NOFILE, &limit) != 0) {
        return jobs;
    }
    struct rlimit raised = {limit.rlim_max, limit.rlim_max};
    rlim_t most = setrlimit(RLIMIT_NOFILE, &raised) == 0 ? raised.rlim_cur : limit.rlim_cur;
    most = most > OWN_DESCRIPTORS + 2 ? (most - OWN_DESCRIPTORS) / 2 : 1;
    return (rlim_t)jobs < most ? jobs : (int)most;
}

enum status work_through(const struct work *work)
{
    int jobs = work->jobs == 1 || work->count < 2 ? 1 : possible_jobs(work->jobs);
    if (jobs == 1) {
        return one_after_another(work);
    }
    struct child *children = calloc((size_t)jobs, sizeof *children);
    if (children == NULL) {
        return say_system("-j");
    }
    enum status status = several_at_once(work, children, jobs);
    free(children);
    return status;
}
