#include "options.h"

#include <stddef.h>
#include <string.h>

enum { MOST_JOBS = 1024 };

/* A word that sets an option; the later of two with one meaning is the longer. */
static const struct spelling {
    const char *word;
    enum option option;
    bool takes; /* the next word, or what stands behind `=` or, of one letter, right behind it */
} spellings[] = {
    {"-h", HELP, false},
    {"--help", HELP, false},
    {"--version", VERSION, false},
    {"--json", JSON, false},
    {"--strict", STRICT, false},
    {"--force", FORCE, false},
    {"--as-crate", AS_CRATE, false},
    {"-j", JOBS, true},
    {"--jobs", JOBS, true},
    {"--files0-from", FILES0_FROM, true},
};
enum { SPELLINGS = sizeof spellings / sizeof spellings[0] };

const char *option_word(unsigned bits)
{
    const char *word = NULL;
    for (int i = 0; i < SPELLINGS; i++) {
        if ((spellings[i].option & bits) != 0) {
            word = spellings[i].word;
        }
    }
    return word;
}

/* What an option's word has behind it in the same word: null if it is another word, or has behind
   it what may not be there. */
static const char *behind(const struct spelling *s, const char *word)
{
    size_t length = strlen(s->word);
    if (strncmp(word, s->word, length) != 0) {
        return NULL;
    }
    const char *rest = word + length;
    if (*rest == '\0' || (s->takes && length == 2)) {
        return rest;
    }
    return s->takes && *rest == '=' ? rest : NULL;
}

static const struct spelling *spelling_of(const char *word, const char **rest)
{
    for (int i = 0; i < SPELLINGS; i++) {
        *rest = behind(&spellings[i], word);
        if (*rest != NULL) {
            return &spellings[i];
        }
    }
    return NULL;
}

static void refuse(struct options *o, const char *reason, const char *word)
{
    if (o->wrong == NULL) {
        o->wrong = reason;
        o->wrong_word = word;
    }
}

/* A decimal number from 1 to the most; 0 for any other text. */
static int number_of(const char *text)
{
    int number = 0;
    for (const char *at = text; *at != '\0'; at++) {
        if (*at < '0' || *at > '9' || number > MOST_JOBS) {
            return 0;
        }
        number = number * 10 + (*at - '0');
    }
    return number <= MOST_JOBS ? number : 0;
}

static void take_value(struct options *o, enum option option, const char *value)
{
    if (option == FILES0_FROM) {
        o->files0 = value;
        return;
    }
    o->jobs = number_of(value);
    if (o->jobs == 0) {
        refuse(o, "-j wants a number from 1 to 1024, not ", value);
    }
}

/* Answers how many further words it took. */
static int take_option(struct options *o, const struct spelling *s, const char *rest,
                       const char *next)
{
    o->given |= (unsigned)s->option;
    if (!s->takes) {
        return 0;
    }
    if (*rest != '\0') {
        take_value(o, s->option, *rest == '=' ? rest + 1 : rest);
        return 0;
    }
    if (next == NULL) {
        refuse(o, "there is nothing behind ", s->word);
        return 0;
    }
    take_value(o, s->option, next);
    return 1;
}

static void take_word(struct options *o, char *word)
{
    if (o->verb == NULL) {
        o->verb = word;
    } else {
        o->names[o->count++] = word;
    }
}

/* `-` alone is a name: that of standard input. */
static bool looks_like_option(const char *word)
{
    return word[0] == '-' && word[1] != '\0';
}

/* Names are gathered at the front of the arguments themselves: there are never more of them than
   words already read. */
struct options read_options(int argc, char **argv)
{
    struct options o = {.jobs = 1, .names = argv + 1};
    bool options = true;
    for (int i = 1; i < argc; i++) {
        const char *rest;
        const struct spelling *s = options ? spelling_of(argv[i], &rest) : NULL;
        if (s != NULL) {
            i += take_option(&o, s, rest, argv[i + 1]);
        } else if (options && strcmp(argv[i], "--") == 0) {
            options = false;
        } else if (options && looks_like_option(argv[i])) {
            refuse(&o, "unknown option ", argv[i]);
        } else {
            take_word(&o, argv[i]);
        }
    }
    return o;
}
