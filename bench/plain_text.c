/* The inventory and the reader of a list by hand, in plain C. Of products it knows templates 0 to
 * 15, all that the files here have. */
#include "drive.h"
#include <string.h>

enum outcome { CLEAN = 0, TABLE_FULL = 14, TOO_SMALL = 20, NOT_IN_FORM = 21 };

struct field {
    int known;
    uint64_t value;
};

static uint64_t big_endian(const uint8_t *at, int octets)
{
    uint64_t number = 0;
    for (int i = 0; i < octets; i++) {
        number = number << 8 | at[i];
    }
    return number;
}

/* Digits come last first, so the line is made from its end. */
static uint8_t *put_before(uint8_t *end, struct field f)
{
    if (!f.known) {
        return memcpy(end - 4, "none", 4);
    }
    do {
        *--end = (uint8_t)('0' + f.value % 10);
        f.value /= 10;
    } while (f.value != 0);
    return end;
}

static void fields_of(const uint8_t *file, const uint64_t *rows, const uint64_t *line,
                      struct field f[9])
{
    const uint64_t *four = rows + line[PLACES + 4] * ROW;
    const uint8_t *payload = file + four[1] + 5;
    uint64_t size = four[2] - 5;
    int supported = big_endian(payload + 2, 2) <= 15;
    f[0] = (struct field){1, line[MESSAGE]};
    f[1] = (struct field){1, line[SUBMESSAGE]};
    f[2] = (struct field){1, line[OFFSET]};
    f[3] = (struct field){1, file[line[OFFSET] + 6]};
    f[4] = (struct field){supported && size > 4, payload[4]};
    f[5] = (struct field){supported && size > 5, payload[5]};
    f[6] = (struct field){supported && size >= 17, payload[12]};
    f[7] = (struct field){f[6].known, f[6].known ? big_endian(payload + 13, 4) : 0};
    f[8] = (struct field){supported && size >= 29, payload[17]};
}

uint64_t list_file(const uint8_t *file, size_t octets, uint8_t *text, struct tables tables)
{
    struct walked walked = walk_file(file, octets, tables);
    size_t written = 0;
    if (walked.outcome != CLEAN) {
        return walked.outcome;
    }
    for (int writes = 0; writes < 2; writes++) {
        written = 0;
        for (uint64_t i = 0; i < walked.submessages; i++) {
            uint8_t line[98], *at = line + sizeof line;
            struct field f[9];
            fields_of(file, tables.rows, tables.lines + i * LINE, f);
            for (int k = 8; k >= 0; k--) {
                *--at = k == 8 ? '\n' : ':';
                at = put_before(at, f[k]);
            }
            size_t length = (size_t)(line + sizeof line - at);
            if (writes) {
                memcpy(text + written, at, length);
            }
            written += length;
        }
        if (written > octets) {
            return TOO_SMALL;
        }
    }
    return CLEAN;
}

static const uint64_t most_of[9] = {1ull << 40, 1ull << 40, 1ull << 40, 255, 255,
                                    255,        255,        4294967295, 255};

/* Where the field ends; null if it is not in form. */
static const uint8_t *read_field(const uint8_t *at, const uint8_t *end, int k, struct field *f)
{
    if (k >= 4 && end - at >= 4 && memcmp(at, "none", 4) == 0) {
        *f = (struct field){0, 0};
        return at + 4;
    }
    const uint8_t *first = at;
    *f = (struct field){1, 0};
    while (at < end && *at >= '0' && *at <= '9') {
        f->value = f->value * 10 + (uint64_t)(*at++ - '0');
        if (f->value > most_of[k]) {
            return NULL;
        }
    }
    return at == first || (*first == '0' && at - first > 1) ? NULL : at;
}

uint64_t read_text(const uint8_t *text, size_t octets, struct tables tables)
{
    /* where each field's number stands in an entry; the number before it says whether there is one,
     * from the fifth on */
    static const uint8_t place_of[9] = {0, 1, 2, 3, 5, 7, 9, 10, 12};
    const uint8_t *at = text, *end = text + octets;
    size_t room = tables.line_numbers / ENTRY;
    for (size_t read = 0; at < end; read++) {
        struct field f[9];
        for (int k = 0; k < 9; k++) {
            at = read_field(at, end, k, &f[k]);
            if (at == NULL || at == end || *at++ != (k == 8 ? '\n' : ':')) {
                return NOT_IN_FORM;
            }
        }
        if (f[6].known != f[7].known) {
            return NOT_IN_FORM;
        }
        if (read == room) {
            return TABLE_FULL;
        }
        uint64_t *entry = tables.lines + read * ENTRY;
        for (int k = 0; k < 9; k++) {
            entry[place_of[k]] = f[k].value;
        }
        entry[4] = (uint64_t)f[4].known;
        entry[6] = (uint64_t)f[5].known;
        entry[8] = (uint64_t)f[6].known;
        entry[11] = (uint64_t)f[8].known;
    }
    return CLEAN;
}
