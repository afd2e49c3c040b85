#include "into.h"

#include <errno.h>
#include <stdio.h>
#include <stdlib.h>
#include <string.h>
#include <sys/stat.h>

#include "say.h"
#include "source.h"
#include "text.h"

static bool fails(const char *name, const char *reason)
{
    say_failed(name, reason);
    return false;
}

static bool fails_by_system(const char *name)
{
    say_system(name);
    return false;
}

/* An existing folder, a name that can only be a folder's, or what has to take several files. */
static bool means_folder(const char *last, int count)
{
    struct stat found;
    size_t length = strlen(last);
    return count > 2 || (length != 0 && last[length - 1] == '/') ||
           (stat(last, &found) == 0 && S_ISDIR(found.st_mode));
}

static bool is_folder(const char *name)
{
    struct stat found;
    if (stat(name, &found) != 0) {
        return fails_by_system(name);
    }
    return S_ISDIR(found.st_mode) || fails(name, "is no folder");
}

/* The length of a name without the slashes behind it. */
static size_t without_slashes(const char *name)
{
    size_t end = strlen(name);
    while (end > 0 && name[end - 1] == '/') {
        end--;
    }
    return end;
}

/* Where the last part of a name of this length starts. */
static size_t start_of_part(const char *name, size_t end)
{
    while (end > 0 && name[end - 1] != '/') {
        end--;
    }
    return end;
}

/* The last part of the name, in the folder. Null where there is no memory. */
static char *joined(const char *folder, const char *name)
{
    size_t end = without_slashes(name), start = start_of_part(name, end), length = strlen(folder);
    const char *between = length != 0 && folder[length - 1] == '/' ? "" : "/";
    size_t room = length + strlen(between) + (end - start) + 1;
    char *path = malloc(room);
    if (path != NULL) {
        snprintf(path, room, "%s%s%.*s", folder, between, (int)(end - start), name + start);
    }
    return path;
}

static bool join_each(struct into *into, char **names, const char *folder)
{
    for (int i = 0; i < into->count; i++) {
        if (is_standard_input(names[i])) {
            return fails(names[i],
                         "standard input has no name that its copy could have in a folder");
        }
        into->dests[i] = joined(folder, names[i]);
        if (into->dests[i] == NULL) {
            return fails_by_system(folder);
        }
    }
    return true;
}

/* A file, by its place among the names, and where its copy goes. */
struct pair {
    int place;
    const char *name;
    const char *dest;
};

static int by_dest(const void *a, const void *b)
{
    const struct pair *one = a, *other = b;
    int order = strcmp(one->dest, other->dest);
    return order != 0 ? order : one->place - other->place;
}

static bool fails_as_same(const struct pair *one, const struct pair *other)
{
    fputs("buttresk: ", stderr);
    put_name(stderr, one->name);
    fputs(" and ", stderr);
    put_name(stderr, other->name);
    fputs(": both copies would be ", stderr);
    put_name(stderr, one->dest);
    putc('\n', stderr);
    return false;
}

static bool neighbours_differ(const struct pair *pairs, int count)
{
    for (int i = 1; i < count; i++) {
        if (strcmp(pairs[i - 1].dest, pairs[i].dest) == 0) {
            return fails_as_same(&pairs[i - 1], &pairs[i]);
        }
    }
    return true;
}

/* Of two files with one last part the second copy would replace the first. */
static bool all_differ(const struct into *into, char **names)
{
    struct pair *pairs = malloc(((size_t)into->count + 1) * sizeof *pairs);
    if (pairs == NULL) {
        return fails_by_system(names[into->count]);
    }
    for (int i = 0; i < into->count; i++) {
        pairs[i] = (struct pair){i, names[i], into->dests[i]};
    }
    qsort(pairs, (size_t)into->count, sizeof *pairs, by_dest);
    bool differ = neighbours_differ(pairs, into->count);
    free(pairs);
    return differ;
}

/* What stands somewhere, whatever name leads there; of a file its place among the names. */
struct standing {
    dev_t device;
    ino_t inode;
    int place;
};

static bool stands(const char *name, int place, struct standing *found)
{
    struct stat is;
    if (stat(name, &is) != 0) {
        return false;
    }
    *found = (struct standing){is.st_dev, is.st_ino, place};
    return true;
}

static int by_inode(const void *a, const void *b)
{
    const struct standing *one = a, *other = b;
    if (one->device != other->device) {
        return one->device < other->device ? -1 : 1;
    }
    return one->inode == other->inode ? 0 : one->inode < other->inode ? -1 : 1;
}

/* All files that stand, in an order in which one can be searched. */
static int find_files(struct standing *files, char **names, int count)
{
    int found = 0;
    for (int i = 0; i < count; i++) {
        found += stands(names[i], i, &files[found]) ? 1 : 0;
    }
    qsort(files, (size_t)found, sizeof *files, by_inode);
    return found;
}

/* Whether it is one of the files, but for that of the same place. */
static bool is_another(const struct standing *dest, const struct standing *files, int count)
{
    const struct standing *end = files + count;
    const struct standing *at = bsearch(dest, files, (size_t)count, sizeof *files, by_inode);
    while (at != NULL && at > files && by_inode(at - 1, dest) == 0) {
        at--;
    }
    while (at != NULL && at < end && at->place == dest->place) {
        at++;
    }
    return at != NULL && at < end && by_inode(at, dest) == 0;
}

/* No copy may be put over another file that is still to be copied. A copy over its own file is
   refused when its turn comes. */
static bool none_is_another(const struct into *into, char **names)
{
    struct standing dest, *files = malloc(((size_t)into->count + 1) * sizeof *files);
    if (files == NULL) {
        return fails_by_system(names[into->count]);
    }
    int count = find_files(files, names, into->count), i = 0;
    while (i < into->count &&
           !(stands(into->dests[i], i, &dest) && is_another(&dest, files, count))) {
        i++;
    }
    free(files);
    return i == into->count || fails(into->dests[i], "is another of the files to be copied");
}

/* A name of its own: standard input is no place for a copy, and standard output is not meant. */
static bool set_dest(struct into *into, const char *dest)
{
    if (is_standard_input(dest)) {
        return fails(dest, "is no place for a copy; a file of that name is ./-");
    }
    into->dests[0] = strdup(dest);
    return into->dests[0] != NULL || fails_by_system(dest);
}

bool into_find(struct into *into, char **names, int count, bool folder)
{
    const char *last = names[count - 1];
    *into = (struct into){calloc((size_t)count, sizeof *into->dests), count - 1};
    if (into->dests == NULL) {
        return fails_by_system(last);
    }
    if (folder || means_folder(last, count)) {
        return is_folder(last) && join_each(into, names, last) && all_differ(into, names) &&
               none_is_another(into, names);
    }
    return set_dest(into, last);
}

void into_free(struct into *into)
{
    for (int i = 0; into->dests != NULL && i < into->count; i++) {
        free(into->dests[i]);
    }
    free(into->dests);
    *into = (struct into){NULL, 0};
}
