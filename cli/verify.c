/* `verify` and `leaks`: a file's octets beside those of a public copy, which the library makes in a
 * spool. */
#include <inttypes.h>
#include <stdio.h>
#include <string.h>
#include <unistd.h>

#include "commands.h"
#include "guard.h"
#include "out.h"
#include "publish.h"
#include "spool.h"
#include "tables.h"
#include "text.h"
#include "watch.h"

enum { BLOCK = 1 << 16 };

/* The statuses of an answer. A file that is refused has none: that is FAILED. */
static const enum status yes = CLEAN, no = REFUSED;

struct spooled {
    int fd;
    struct room room;
};

/* A file that is too long is not mapped, and has no answer. */
static bool opened(struct source *source, const char *name)
{
    if (!source_open(source, name)) {
        return false;
    }
    if (source->too_long) {
        source_refuse(source);
    }
    return !source->too_long;
}

/* --- The public copy ------------------------------------------------------------------------- */

static void spooled_close(struct spooled *copy)
{
    room_unmap(&copy->room);
    if (copy->fd >= 0) {
        close(copy->fd);
    }
    copy->fd = -1;
}

/* What was taken of the disk is given back before anything is said. */
static bool give_up(struct spooled *copy, const struct source *source, const void *fault)
{
    bool own = room_has(&copy->room, fault);
    spooled_close(copy);
    if (own) {
        say_failed(source->name, "could not be spooled: the spool's disk is full or fails");
    } else {
        source_say_fault(source);
    }
    return false;
}

static bool publish_spooled(struct publishing *publishing, struct spooled *copy)
{
    const struct source *source = publishing->source;
    if (!publish_watched(publishing)) {
        return give_up(copy, source, publishing->fault);
    }
    if (publishing->answer.outcome == BUTTRESK_DONE) {
        return true;
    }
    spooled_close(copy);
    if (source_same(source)) {
        say_end(source->name, END_OF(publishing->answer));
    }
    return false;
}

/* Says its own reason, and answers false, if the source has no public copy. */
static bool spooled_open(struct spooled *copy, const struct source *source)
{
    struct publishing publishing = {.source = source, .room = &copy->room};
    *copy = (struct spooled){-1, room_none()};
    copy->fd = spool_open(source->name);
    if (copy->fd < 0) {
        return false;
    }
    int failure = room_take(&copy->room, copy->fd, source->size);
    if (failure != 0) {
        spooled_close(copy);
        spool_failed(source->name, failure);
        return false;
    }
    return publish_spooled(&publishing, copy);
}

/* --- The first octet that differs ------------------------------------------------------------ */

struct comparing {
    const uint8_t *file;
    const uint8_t *copy;
    size_t size;
    size_t equal;             /* so many octets, from the first on */
    uint8_t in_file, in_copy; /* the next octet, if it is not equal */
};

static size_t block_from(const struct comparing *c)
{
    size_t rest = c->size - c->equal;
    return rest < BLOCK ? rest : BLOCK;
}

static void compare_octets(struct comparing *c)
{
    while (c->equal < c->size && c->file[c->equal] == c->copy[c->equal]) {
        c->equal++;
    }
}

/* By blocks, and in the first that differs octet by octet. */
static void compare(void *with)
{
    struct comparing *c = with;
    while (c->equal < c->size &&
           memcmp(c->file + c->equal, c->copy + c->equal, block_from(c)) == 0) {
        c->equal += block_from(c);
    }
    compare_octets(c);
    if (c->equal < c->size) {
        c->in_file = c->file[c->equal];
        c->in_copy = c->copy[c->equal];
    }
}

/* Of the octets that both have. Says its own reason, and answers false, if they can't be read. */
static bool compared(struct comparing *c, const struct source *file, struct spooled *copy)
{
    struct watch watch;
    const void *fault;
    size_t size = file->size < copy->room.size ? file->size : copy->room.size;
    *c = (struct comparing){.file = file->octets, .copy = copy->room.octets, .size = size};
    watch_start(&watch, file, "comparing", false);
    watch_also(&watch, copy->room.octets, copy->room.size);
    bool ended = guarded(compare, c, &fault);
    watch_stop(&watch);
    return ended || give_up(copy, file, fault);
}

/* How a file compares with the public copy of an original, which may be the file itself. */
static bool compared_with_copy(struct comparing *c, const struct source *file,
                               const struct source *original)
{
    struct spooled copy;
    bool done = spooled_open(&copy, original) && compared(c, file, &copy);
    spooled_close(&copy);
    return done && source_same(original) && source_same(file);
}

/* --- verify ---------------------------------------------------------------------------------- */

static void print_verified(const struct comparing *c, const struct source *claimed,
                           const struct source *original)
{
    put_name(stdout, claimed->name);
    if (c->equal < c->size) {
        printf(": octet %zu is %u, and is %u in", c->equal, c->in_file, c->in_copy);
    } else if (claimed->size < original->size) {
        printf(": ends before octet %zu of", c->equal);
    } else if (claimed->size > original->size) {
        printf(": goes on with octet %zu, behind the end of", c->equal);
    } else {
        fputs(": is", stdout);
    }
    fputs(" the public copy of ", stdout);
    put_name(stdout, original->name);
    putchar('\n');
}

static enum status verify(const struct source *claimed, const struct source *original)
{
    struct comparing c;
    if (!compared_with_copy(&c, claimed, original)) {
        return FAILED;
    }
    print_verified(&c, claimed, original);
    bool same = c.equal == claimed->size && c.equal == original->size;
    return !output_taken() ? FAILED : same ? yes : no;
}

enum status verify_file(const char *public_name, const char *original_name)
{
    struct source claimed, original;
    enum status status = FAILED;
    if (opened(&claimed, public_name)) {
        status = opened(&original, original_name) ? verify(&claimed, &original) : FAILED;
        source_close(&original);
    }
    source_close(&claimed);
    return status;
}

/* --- leaks ----------------------------------------------------------------------------------- */

static bool holds(struct row row, uint64_t octet)
{
    return octet >= row.offset && octet - row.offset < row.length;
}

/* The place of the section that has the octet; the count of all if none has. */
static uint64_t place_of(const struct tables *tables, uint64_t octet)
{
    uint64_t place = 0;
    while (place < tables->answer.sections && !holds(tables_row(tables, place), octet)) {
        place++;
    }
    return place;
}

static void print_leak(const struct comparing *c, const char *name, const struct tables *tables)
{
    uint64_t place = place_of(tables, c->equal);
    put_name(stdout, name);
    printf(": octet %zu is %u, and ", c->equal, c->in_file);
    if (place < tables->answer.sections) {
        printf("carries values: section %" PRIu64 " at place %" PRIu64 "\n",
               tables_row(tables, place).number, place);
    } else {
        puts("stands outside every message");
    }
}

/* What the octet is comes from the walk. The file has a public copy, so it walks clean. */
static enum status tell_leak(const struct comparing *c, const struct source *source)
{
    struct tables tables;
    enum status status = FAILED;
    if (tables_walk(&tables, source) && say_end(source->name, END_OF(tables.answer)) == CLEAN) {
        print_leak(c, source->name, &tables);
        status = output_taken() ? yes : FAILED;
    }
    tables_free(&tables);
    return status;
}

/* A file differs from its own public copy exactly where it leaks. */
static enum status leaks_of(const struct source *source)
{
    struct comparing c;
    if (!compared_with_copy(&c, source, source)) {
        return FAILED;
    }
    if (c.equal < c.size) {
        return tell_leak(&c, source);
    }
    put_name(stdout, source->name);
    puts(": every octet that carries values or stands outside a message is 0");
    return output_taken() ? no : FAILED;
}

enum status leaks_of_file(const char *name)
{
    struct source source;
    enum status status = opened(&source, name) ? leaks_of(&source) : FAILED;
    source_close(&source);
    return status;
}
