#include "names.h"

#include <limits.h>
#include <stdio.h>
#include <stdlib.h>
#include <string.h>

#include "say.h"
#include "source.h"

struct text {
    char *octets;
    size_t size;
    size_t room;
};

/* Room for one octet more than is there: a 0 that ends the last name. */
static bool has_room(struct text *t)
{
    if (t->size + 1 < t->room) {
        return true;
    }
    size_t room = t->room == 0 ? 65536 : t->room * 2;
    char *octets = realloc(t->octets, room);
    if (octets != NULL) {
        t->octets = octets;
        t->room = room;
    }
    return octets != NULL;
}

static bool read_all(FILE *from, struct text *t)
{
    while (has_room(t)) {
        size_t got = fread(t->octets + t->size, 1, t->room - t->size - 1, from);
        t->size += got;
        if (got == 0) {
            return ferror(from) == 0;
        }
    }
    return false;
}

static bool read_list_of_names(const char *list, struct text *t)
{
    FILE *from = is_standard_input(list) ? stdin : fopen(list, "rb");
    bool done = from != NULL && read_all(from, t);
    if (!done) {
        say_system(list);
    }
    if (from != NULL && from != stdin) {
        fclose(from);
    }
    return done;
}

/* The last name may have no 0 behind it. */
static int count_names(const struct text *t)
{
    int count = 0;
    for (size_t i = 0; i < t->size; i++) {
        if ((t->octets[i] == '\0' || i + 1 == t->size) && count < INT_MAX / 2) {
            count++;
        }
    }
    return count;
}

static bool take_names(struct names *names, const char *list, struct text *t)
{
    char *at = t->octets;
    t->octets[t->size] = '\0';
    for (int i = 0; i < names->count; i++) {
        if (*at == '\0') {
            say_failed(list, "has an empty name in it");
            return false;
        }
        names->all[i] = at;
        at += strlen(at) + 1;
    }
    return true;
}

bool names_gather(struct names *names, const char *list, char **given, int count)
{
    struct text text = {0};
    *names = (struct names){0};
    bool done = list == NULL || read_list_of_names(list, &text);
    names->octets = text.octets;
    if (!done) {
        return false;
    }
    names->count = count_names(&text);
    names->all = malloc(((size_t)names->count + (size_t)count + 1) * sizeof *names->all);
    if (names->all == NULL) {
        say_system(list == NULL ? "the names" : list);
        return false;
    }
    if (list != NULL && !take_names(names, list, &text)) {
        return false;
    }
    memcpy(names->all + names->count, given, (size_t)count * sizeof *given);
    names->count += count;
    return true;
}

void names_free(struct names *names)
{
    free(names->all);
    free(names->octets);
}
