/* The command `buttresk`: docs/buttresk.1 says all of it. Here is what it is asked, and what holds
   of all it does. */
#include <fcntl.h>
#include <signal.h>
#include <stdbool.h>
#include <stdio.h>
#include <string.h>
#include <unistd.h>

#include "commands.h"
#include "ending.h"
#include "guard.h"
#include "into.h"
#include "jobs.h"
#include "names.h"
#include "options.h"
#include "out.h"
#include "source.h"
#include "text.h"
#include "verbs.h"

static void print_usage(FILE *to, const struct verb *verb, const char *before)
{
    for (const char *from = verb->synopsis; from != NULL; before = "       ") {
        const char *bar = strchr(from, '|');
        int length = bar == NULL ? (int)strlen(from) : (int)(bar - from);
        fprintf(to, "%sbuttresk %s %.*s\n", before, verb->name, length, from);
        from = bar == NULL ? NULL : bar + 1;
    }
}

static void print_usages(FILE *to)
{
    for (const struct verb *verb = verbs; verb->name != NULL; verb++) {
        print_usage(to, verb, verb == verbs ? "usage: " : "       ");
    }
    fputs("       buttresk [VERB] -h | --help\n       buttresk --version\n", to);
}

/* The first and the last may be words of the user's; any may be empty. */
static enum status wrong_usage(const struct verb *verb, const char *first, const char *reason,
                               const char *last)
{
    fputs("buttresk: ", stderr);
    put_name(stderr, first);
    fputs(reason, stderr);
    put_name(stderr, last);
    putc('\n', stderr);
    if (verb == NULL) {
        print_usages(stderr);
    } else {
        print_usage(stderr, verb, "usage: ");
    }
    return FAILED;
}

static const char general[] =
    "\n"
    "A FILE that is `-` is standard input; names that begin with - stand behind --. With\n"
    "FILE.. and LIST.. also: -j N or --jobs N, N files at once; --files0-from LIST, names from\n"
    "a list, each ended by a 0 octet. Exit status: 0 clean; 1 a file or a list is refused,\n"
    "which standard error tells, or has what --strict asks for; 2 wrong usage, or an error of\n"
    "the system. Of verify and leaks: 0 yes, 1 no.\n";

static void print_help(void)
{
    print_usages(stdout);
    puts("\nReads GRIB edition 2 files by a library whose every answer is proved.\n");
    for (const struct verb *verb = verbs; verb->name != NULL; verb++) {
        printf("  %-9s  %s\n", verb->name, verb->does);
    }
    fputs(general, stdout);
}

static void print_help_of(const struct verb *verb)
{
    print_usage(stdout, verb, "usage: ");
    printf("\n%s: %s\n\n%s", verb->name, verb->does, verb->help);
    if ((verb->takes & JOBS) != 0) {
        puts("-j N, --jobs N: N files at once. --files0-from LIST: names from a list, each ended\n"
             "by a 0 octet.");
    }
}

/* What each file of a work is asked. */
struct question {
    const struct verb *verb;
    char **names;
    char **dests; /* of `copy` */
    struct asked asked;
};

static enum status ask(int which, const void *with)
{
    const struct question *q = with;
    const char *name = q->names[which];
    return q->verb->way == COPY ? copy_file(name, q->dests[which], q->asked.force)
                                : q->verb->of_file(name, &q->asked);
}

/* The reason is said already, and is the end of its file's objects. */
static enum status tell_lost(int which, const void *with)
{
    const struct question *q = with;
    return tell_failed(q->names[which], &q->asked);
}

static enum status ask_all(const struct question *q, int count, int jobs)
{
    struct work work = {q->names, count, jobs, ask, tell_lost, q};
    if (q->verb->head != NULL) {
        q->verb->head(&q->asked);
    }
    /* A heading stands before what is told of the first file. */
    enum status status = output_taken() ? work_through(&work) : FAILED;
    return output_taken() ? status : FAILED;
}

/* Who gives a list of names does not know how many there are: they go into a folder. */
static enum status copy_all(struct question *q, int count, int jobs, bool listed)
{
    struct into into;
    /* A pipe that somebody closed is told by the call that fails, and ends no copy. */
    signal(SIGPIPE, SIG_IGN);
    bool found = into_find(&into, q->names, count, listed);
    q->dests = into.dests;
    enum status status = found ? ask_all(q, into.count, jobs) : FAILED;
    into_free(&into);
    return status;
}

static enum status do_with_names(const struct verb *verb, const struct options *o,
                                 const struct names *names)
{
    struct question q = {.verb = verb, .names = names->all};
    q.asked = (struct asked){.several = names->count > 1 || o->files0 != NULL,
                             .json = (o->given & JSON) != 0,
                             .strict = (o->given & STRICT) != 0,
                             .force = (o->given & FORCE) != 0,
                             .reading = (o->given & AS_CRATE) != 0 ? BUTTRESK_AS_CRATE
                                                                   : BUTTRESK_BY_MANUAL,
                             .says_reading = (verb->takes & AS_CRATE) != 0};
    switch (verb->way) {
    case COPY:
        return copy_all(&q, names->count, o->jobs, o->files0 != NULL);
    case VERIFY:
        return verify_file(names->all[0], names->all[1]);
    case LEAKS:
        return leaks_of_file(names->all[0]);
    default:
        return ask_all(&q, names->count, o->jobs);
    }
}

/* Standard input can be read once: by the list of names, or as one file. */
static bool read_once(const struct names *names, const char *list)
{
    int times = list != NULL && is_standard_input(list) ? 1 : 0;
    for (int i = 0; i < names->count; i++) {
        times += is_standard_input(names->all[i]) ? 1 : 0;
    }
    return times < 2;
}

static enum status gather_and_do(const struct verb *verb, const struct options *o)
{
    struct names names;
    enum status status = FAILED;
    if (names_gather(&names, o->files0, o->names, o->count)) {
        status = read_once(&names, o->files0)
                     ? do_with_names(verb, o, &names)
                     : wrong_usage(verb, "", "standard input is asked for twice by ", verb->name);
    }
    names_free(&names);
    return status;
}

/* With a list of names no other is given, but for the folder that copies go into. */
static bool names_fit(const struct verb *verb, const struct options *o)
{
    if (o->files0 == NULL) {
        return o->count >= verb->least && o->count <= verb->most;
    }
    return o->count == verb->least - 1;
}

static enum status dispatch(const struct options *o)
{
    const struct verb *verb = verb_of(o->verb);
    if (verb == NULL) {
        return wrong_usage(NULL, "", "unknown command ", o->verb);
    }
    unsigned beyond = o->given & ~(verb->takes | HELP);
    if (beyond != 0) {
        return wrong_usage(verb, option_word(beyond), " is not for ", verb->name);
    }
    if ((o->given & HELP) != 0) {
        print_help_of(verb);
        return output_taken() ? CLEAN : FAILED;
    }
    if (!names_fit(verb, o)) {
        return o->files0 == NULL
                   ? wrong_usage(verb, "", verb->wants, verb->name)
                   : wrong_usage(verb, "--files0-from",
                                 verb->way == COPY ? " wants one FOLDER and no FILE, for "
                                                   : " has all the names, for ",
                                 verb->name);
    }
    return gather_and_do(verb, o);
}

static enum status answer(const struct options *o)
{
    if (o->wrong != NULL) {
        return wrong_usage(NULL, "", o->wrong, o->wrong_word);
    }
    if (o->verb != NULL) {
        return dispatch(o);
    }
    if ((o->given & HELP) != 0) {
        print_help();
    } else if ((o->given & VERSION) != 0) {
        puts("buttresk " BUTTRESK_VERSION);
    } else {
        return wrong_usage(NULL, "", "no command", "");
    }
    return output_taken() ? CLEAN : FAILED;
}

/* A file that is opened is never to stand where standard output or error should: a message would be
   written into a copy. What was closed is held by a descriptor that can't be used, so that its use
   fails as it would have. */
static void hold_standard_descriptors(void)
{
    for (int fd = 0; fd <= 2; fd++) {
        if (fcntl(fd, F_GETFD) < 0) {
            open("/dev/null", fd == 0 ? O_WRONLY : O_RDONLY);
        }
    }
}

int main(int argc, char **argv)
{
    hold_standard_descriptors();
    /* A line that is told is one write, whoever else writes there. */
    setvbuf(stderr, NULL, _IOLBF, BUFSIZ);
    /* A disk's limit is told by the call that fails, with its reason; and a child is waited for,
       whatever was inherited. */
    signal(SIGXFSZ, SIG_IGN);
    signal(SIGCHLD, SIG_DFL);
    if (!guard_install()) {
        return (int)say_system("SIGBUS and SIGSEGV");
    }
    struct options options = read_options(argc, argv);
    return (int)answer(&options);
}
