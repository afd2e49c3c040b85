/*
 * The same walk and public copy in plain C, as one would write them by hand: what the proved ones
 * are held against. Places, offsets and details of refusals are left out; all else is judged and
 * stored.
 */
#include "drive.h"
#include <string.h>

enum outcome {
    CLEAN = 0,
    CUT = 2,
    OTHER_EDITION = 3,
    TOTAL_UNDER_16 = 4,
    NOT_END_MARK = 5,
    LENGTH_UNDER_5 = 6,
    UNKNOWN_NUMBER = 7,
    PAYLOAD_UNDER_LEAST = 8,
    LONGER_THAN_REST = 9,
    INPUT_OVER = 10,
    MISPLACED = 11,
    NO_GRID = 12,
    ROWS_FULL = 13,
    LINES_FULL = 14,
    READ = 100
};

struct walk {
    const uint8_t *file;
    size_t octets, at;
    uint64_t rest;       /* octets left of the message; 0 between messages */
    unsigned last;       /* number of the section read last; 8 between messages */
    uint64_t line[LINE]; /* the line of the submessage in hand */
    struct tables tables;
    uint64_t row_room, line_room;
    struct walked done;
};

struct section {
    unsigned number;
    uint64_t offset, length;
};

static uint32_t four(const uint8_t *p)
{
    return (uint32_t)p[0] << 24 | (uint32_t)p[1] << 16 | (uint32_t)p[2] << 8 | p[3];
}

/* A section 7 may have ended beyond the file. */
static size_t left_of(const struct walk *w)
{
    return w->at < w->octets ? w->octets - w->at : 0;
}

static enum outcome read_start(struct walk *w, struct section *s)
{
    size_t i = w->at;
    while (i + 16 <= w->octets && (w->file[i] != 'G' || memcmp(w->file + i, "GRIB", 4) != 0)) {
        i++;
    }
    if (i + 16 > w->octets) {
        return CLEAN;
    }
    if (w->file[i + 7] != 2) {
        return OTHER_EDITION;
    }
    w->rest = (uint64_t)four(w->file + i + 8) << 32 | four(w->file + i + 12);
    *s = (struct section){0, i, 16};
    return w->rest < 16 ? TOTAL_UNDER_16 : READ;
}

static enum outcome read_end(struct walk *w, struct section *s)
{
    size_t left = left_of(w);
    if (left < 4) {
        return left == 0 ? INPUT_OVER : CUT;
    }
    *s = (struct section){8, w->at, 4};
    return memcmp(w->file + w->at, "7777", 4) == 0 ? READ : NOT_END_MARK;
}

static enum outcome read_other(struct walk *w, struct section *s)
{
    static const uint8_t least[8] = {0, 16, 0, 9, 4, 6, 1, 0};
    size_t left = left_of(w);
    if (left < 5) {
        return left == 0 ? INPUT_OVER : CUT;
    }
    uint64_t length = four(w->file + w->at);
    unsigned number = w->file[w->at + 4];
    if (length < 5) {
        return LENGTH_UNDER_5;
    }
    if (number < 1 || number > 7) {
        return UNKNOWN_NUMBER;
    }
    if (number != 7 && (length > left || (number == 6 && left < 6))) {
        return CUT;
    }
    if (length - 5 < least[number]) {
        return PAYLOAD_UNDER_LEAST;
    }
    *s = (struct section){number, w->at, length};
    return length > w->rest ? LONGER_THAN_REST : READ;
}

static int store_line(struct walk *w)
{
    if (w->line_room <= w->done.submessages) {
        return 0;
    }
    memcpy(w->tables.lines + w->done.submessages * LINE, w->line, sizeof w->line);
    w->done.submessages++;
    w->line[SUBMESSAGE]++;
    return 1;
}

/* Bit n of entry m: can section n come after section m? */
static const uint16_t can_follow[9] = {
    1 << 1, 1 << 2 | 1 << 3, 1 << 3, 1 << 4,
    1 << 5, 1 << 6,          1 << 7, 1 << 2 | 1 << 3 | 1 << 4 | 1 << 8,
    1 << 0,
};

static enum outcome take(struct walk *w, struct section s)
{
    if (w->last == 7 && s.number != 8 && !store_line(w)) {
        return LINES_FULL;
    }
    if ((can_follow[w->last] >> s.number & 1) == 0) {
        return w->last == 1 && s.number == 4 ? NO_GRID : MISPLACED;
    }
    uint64_t place = w->done.sections;
    if (w->row_room <= place) {
        return ROWS_FULL;
    }
    w->line[PLACES + s.number] = place;
    if (s.number == 8) {
        w->line[CLOSED] = 1;
        if (!store_line(w)) {
            return LINES_FULL;
        }
        memset(w->line, 0, sizeof w->line);
        w->line[MESSAGE] = ++w->done.messages;
    } else if (s.number == 0) {
        w->line[OFFSET] = s.offset;
        w->line[TOTAL] = w->rest;
    } else {
        w->line[HAS_LOCAL] |= s.number == 2;
    }
    uint64_t *row = w->tables.rows + place * ROW;
    row[0] = s.number;
    row[1] = s.offset;
    row[2] = s.length;
    w->done.sections++;
    return READ;
}

static enum outcome step(struct walk *w)
{
    struct section s = {0};
    enum outcome o = w->rest == 0   ? read_start(w, &s)
                     : w->rest == 4 ? read_end(w, &s)
                                    : read_other(w, &s);
    if (o == CLEAN) {
        return w->last == 8 ? CLEAN : INPUT_OVER;
    }
    if (o != READ || (o = take(w, s)) != READ) {
        return o;
    }
    w->at = s.offset + s.length;
    w->rest -= s.length;
    w->last = s.number;
    return READ;
}

struct walked walk_file(const uint8_t *file, size_t octets, struct tables tables)
{
    struct walk w = {.file = file,
                     .octets = octets,
                     .last = 8,
                     .tables = tables,
                     .row_room = tables.row_numbers / ROW,
                     .line_room = tables.line_numbers / LINE};
    enum outcome o = READ;
    while (o == READ) {
        o = step(&w);
    }
    w.done.outcome = o;
    return w.done;
}

uint64_t copy_file(const uint8_t *file, size_t octets, uint8_t *dest, struct tables tables)
{
    /* octets of a section before its values; 0: it has no values */
    static const uint8_t kept_of[9] = {0, 0, 5, 0, 0, 11, 6, 5, 0};
    struct walked walked = walk_file(file, octets, tables);
    uint64_t done = 0;
    if (walked.outcome != CLEAN) {
        return walked.outcome;
    }
    for (uint64_t i = 0; i < walked.sections; i++) {
        const uint64_t *row = tables.rows + i * ROW;
        uint64_t kept = kept_of[row[0]] != 0 && kept_of[row[0]] < row[2] ? kept_of[row[0]] : row[2];
        memset(dest + done, 0, row[1] - done);
        memcpy(dest + row[1], file + row[1], kept);
        memset(dest + row[1] + kept, 0, row[2] - kept);
        done = row[1] + row[2];
    }
    memset(dest + done, 0, octets - done);
    return CLEAN;
}
