/*
 * Buttresk: reads, redacts and writes GRIB edition 2 files. Every function of the library is proved
 * to give the one answer, and to leave the one content of lent memory, that its definition says
 * (docs/CONTRACTS.md). C11 and C++; x86-64 Linux. Where it is installed:
 *
 *     cc program.c $(pkg-config --cflags --libs buttresk)
 *
 * and in its own folder, where `make` leaves the archive:
 *
 *     cc -Iinclude program.c target/staticlib/libbuttresk.a
 *
 * MEMORY. All memory is the caller's. No function allocates, frees, keeps a pointer when it
 * returns, or has a state of its own, so any number of threads may call at once. Memory is lent for
 * the time of the call, by a pointer and a count of elements (octets, or numbers of 64 bits; not
 * bytes), and this must hold of it:
 *   - the pointer is aligned for its elements, also where the count is 0; as many elements as the
 *     count says are there, and are at most PTRDIFF_MAX bytes. Where the count is 0 the pointer is
 *     never followed, and may be null;
 *   - nothing else reads or writes memory that is lent to be written (`rows`, `lines`, `dest`,
 *     `text` of an inventory, `entries`), and it overlaps no other memory that is lent to the same
 *     call;
 *   - memory that is lent to be read (`const`) does not change during the call: not by another
 *     thread, not by a signal handler, not through the file that it is mapped from.
 * If one of these does not hold, nothing is promised. Of the content of lent memory nothing is
 * asked: a file, a payload or a plan may hold any octets and numbers at all, and every function
 * ends and answers by a number.
 *
 * A VALUE THAT CAN BE NONE stands beside a number that is 1 if there is one and 0 if there is none.
 * Where that number is 0 the value is 0 too and says nothing: look at the number, never at the
 * value.
 */
#ifndef BUTTRESK_H
#define BUTTRESK_H

#include <stddef.h>
#include <stdint.h>

#ifdef __cplusplus
extern "C" {
#endif

/* The version, as a text and as numbers. What else has it takes it from here. */
#define BUTTRESK_VERSION       "0.4.0"
#define BUTTRESK_VERSION_MAJOR 0
#define BUTTRESK_VERSION_MINOR 4
#define BUTTRESK_VERSION_PATCH 0

/*
 * OUTCOMES. Each answer has an outcome and, for a refusal, a place, an offset and a detail; at
 * outcome 0 these three are 0.
 *   place   counts the sections of the whole file from 0; offset counts its octets from 0;
 *   2 to 9  have the place and the offset that the section in hand would have, 10 those of the
 *           section read last, 11 to 14 those of the section just read; 1 and 15 to 21 have 0 and
 *           0, and so has 14 of a list, which is no file;
 *   detail  is as said below, else 0.
 * Of several that hold, the first that is checked is given: in a section 2 (header), 6, 7,
 * 2 (payload), 8, 9; in a section 0: 3, 4; in a section 8: 2, 5; after a good read 14 for a
 * submessage that goes on, then 11 or 12, then 13, and for a section 8 that closes its message 13,
 * then 14.
 */
enum buttresk_outcome {
    /* a clean end; all that was to be written is written */
    BUTTRESK_DONE = 0,

    /* the file is over 2^40 octets */
    BUTTRESK_FILE_TOO_LONG = 1,

    /* 1 to 4 octets are left for a header, 1 to 3 for a section 8, or the payload of a section 1 to
       6 is cut; detail: how many octets are missing, 1 at least: 5 less those left in the file for
       a header, 4 less those left for a section 8, a payload's stated end less the file's length,
       and 1 for a section 6 of length 5 that the file ends behind. It is not what makes the file
       whole: behind a header its payload may be cut too, and further sections may be missing */
    BUTTRESK_CUT = 2,

    /* the edition is not 2; detail: the edition */
    BUTTRESK_OTHER_EDITION = 3,

    /* the total length of a message is under 16 */
    BUTTRESK_TOTAL_UNDER_16 = 4,

    /* a section 8 is not "7777" */
    BUTTRESK_NOT_END_MARK = 5,

    /* a section's length is under 5; detail: the length */
    BUTTRESK_LENGTH_UNDER_5 = 6,

    /* the number in a header is not 1 to 7; detail: the number */
    BUTTRESK_UNKNOWN_NUMBER = 7,

    /* a payload is under its section's least; detail: the payload's size */
    BUTTRESK_PAYLOAD_UNDER_LEAST = 8,

    /* a section is longer than what is left of its message; detail: the section's length */
    BUTTRESK_LONGER_THAN_REST = 9,

    /* the file is over inside a message, between two sections or in the payload of a section 7; how
       much is missing is not told */
    BUTTRESK_INPUT_OVER = 10,

    /* a section of this number can't come next; detail: the number */
    BUTTRESK_MISPLACED = 11,

    /* a section 4 right after a section 1; detail: the number, 4 */
    BUTTRESK_NO_GRID = 12,

    /* a row is due, and the section table is full */
    BUTTRESK_SECTION_TABLE_FULL = 13,

    /* a line is due, and the submessage table is full; of a list: an entry is due, and its table is
       full */
    BUTTRESK_SUBMESSAGE_TABLE_FULL = 14,

    /* the plan has over 4,096 sections */
    BUTTRESK_TOO_MANY_SECTIONS = 15,

    /* the plan's numbers, with 0 before and 8 after, are not one message; detail: the first place
       of the plan whose number is not 1 to 7 or can't come next, the plan's length if only the 8
       misfits */
    BUTTRESK_NOT_ONE_MESSAGE = 16,

    /* a payload reaches beyond the store; detail: its place in the plan */
    BUTTRESK_OUTSIDE_STORE = 17,

    /* a payload is under its section's least, or over 4,294,967,290; detail: its place in the
       plan */
    BUTTRESK_PAYLOAD_SIZE = 18,

    /* the destination is shorter than what is to be written, or that is over 2^40 octets */
    BUTTRESK_NO_ROOM = 19,

    /* the text of an inventory is longer than its buffer */
    BUTTRESK_TEXT_TOO_SMALL = 20,

    /* a line of a list is not in the inventory's form; detail: its number, from 1 */
    BUTTRESK_LINE_NOT_IN_FORM = 21
};

/* An outcome in words: what it is called, what it means, and what its detail is; that is null where
   the detail is 0 and says nothing. */
struct buttresk_outcome_words {
    const char *name;
    const char *means;
    const char *detail;
};

/* The words of an outcome; null for a number that is none. They are of this header: no function of
   the library gives or takes them. */
static inline const struct buttresk_outcome_words *buttresk_words_of_outcome(uint64_t outcome)
{
    static const struct buttresk_outcome_words words[] = {
        {"done", "a clean end", NULL},
        {"file too long", "the file is over 2^40 octets", NULL},
        {"cut",
         "1 to 4 octets are left for a header, 1 to 3 for a section 8, or the payload of a section "
         "1 to 6 is cut",
         "the octets missing"},
        {"other edition", "the edition is not 2", "the edition"},
        {"total under 16", "the total length of a message is under 16", NULL},
        {"no end mark", "a section 8 is not \"7777\"", NULL},
        {"length under 5", "a section's length is under 5", "the length"},
        {"unknown number", "the number in a header is not 1 to 7", "the number"},
        {"payload under least", "a payload is under its section's least", "the payload's size"},
        {"longer than the rest", "a section is longer than what is left of its message",
         "the section's length"},
        {"input over", "the file is over inside a message", NULL},
        {"misplaced", "a section of this number can't come next", "the number"},
        {"no grid", "a section 4 right after a section 1: there is no grid definition",
         "the number"},
        {"section table full", "a row is due, and the section table is full", NULL},
        {"submessage table full", "a line is due, and the submessage table is full", NULL},
        {"too many sections", "the plan has over 4,096 sections", NULL},
        {"not one message", "the plan's numbers are not one message", "the place in the plan"},
        {"outside the store", "a payload reaches beyond the store", "the place in the plan"},
        {"payload size", "a payload is under its section's least, or over 4,294,967,290",
         "the place in the plan"},
        {"no room",
         "the destination is shorter than what is to be written, or that is over 2^40 octets",
         NULL},
        {"text too small", "the text of an inventory is longer than its buffer", NULL},
        {"line not in form", "a line is not in the inventory's form, or no line feed closes it",
         "the line's number, from 1"},
    };
    return outcome < sizeof words / sizeof words[0] ? &words[outcome] : NULL;
}

/* What an outcome is called, as "cut" is; null for a number that is none. */
static inline const char *buttresk_outcome_name(uint64_t outcome)
{
    const struct buttresk_outcome_words *words = buttresk_words_of_outcome(outcome);
    return words == NULL ? NULL : words->name;
}

/* What an outcome means; null for a number that is none. */
static inline const char *buttresk_outcome_means(uint64_t outcome)
{
    const struct buttresk_outcome_words *words = buttresk_words_of_outcome(outcome);
    return words == NULL ? NULL : words->means;
}

/* What the detail of an outcome is; null where it is 0 and says nothing, and for a number that is
   none. */
static inline const char *buttresk_outcome_detail(uint64_t outcome)
{
    const struct buttresk_outcome_words *words = buttresk_words_of_outcome(outcome);
    return words == NULL ? NULL : words->detail;
}

/* Numbers of a row of the section table, of a line of the submessage table, of a section of a plan,
   and of an entry of a list. */
#define BUTTRESK_ROW   3
#define BUTTRESK_LINE  15
#define BUTTRESK_PART  3
#define BUTTRESK_ENTRY 13

/* How many rows and lines stand in the tables, how many messages were closed, and how the walk
   ended. */
struct buttresk_walk_answer {
    uint64_t sections;
    uint64_t submessages;
    uint64_t messages;
    uint64_t outcome;
    uint64_t place;
    uint64_t offset;
    uint64_t detail;
};

/*
 * The walk of a file: every section becomes a row and every submessage a line, in the order of the
 * file.
 *
 * Reads `file`; writes `rows`, as many numbers as `row_numbers` says, and `lines`, as many as
 * `line_numbers` says.
 *   A row is 3 numbers: section number, offset, length (16 for section 0, 4 for section 8, else as
 *   its header states).
 *   A line is 15 numbers: message and submessage (each from 0); 1 or 0 for whether there is a
 *   section 2; 1 or 0 for whether a section 8 closes the message behind this submessage, 0 where
 *   the message goes on; nine places in the section list, of sections 0 to 8; the message's octet
 *   offset; its total length as its section 0 states it, however large, up to 2^64 - 1. Of the nine
 *   places the third, section 2's, says nothing where there is no section 2, and the ninth,
 *   section 8's, says nothing where the message goes on: each is then 0.
 * A remainder under 3, or under 15, is no room. Rows and lines that were stored before a refusal
 * stand, those of a refused section are not stored, and all room beyond the counts of the answer is
 * left as it was.
 *
 * Sections 1 to 7 begin with a header of 5 octets, their length and their number, and the rest is
 * their payload. SECTIONS 0 AND 8 HAVE NO SUCH HEADER: section 0 is 16 octets of its own, section 8
 * is the four octets "7777". Of their rows `length` less 5 is no payload's size, and of section 8
 * it is less than nothing.
 *
 * Refusals: 1 to 14. A section 7 may run past the end of file, and is then listed; every other
 * listed section lies inside it.
 */
struct buttresk_walk_answer buttresk_walk(const uint8_t *file, size_t octets, uint64_t *rows,
                                          size_t row_numbers, uint64_t *lines, size_t line_numbers);

/* How the public copy, the writer or the inventory ended, and the octets that it wrote: 0 on a
   refusal. */
struct buttresk_store_answer {
    uint64_t outcome;
    uint64_t place;
    uint64_t offset;
    uint64_t detail;
    uint64_t written;
};

/*
 * The public copy of a file: the file, with every values octet and every octet outside a message
 * set to zero. Values octets, counted from 1 in their section, are those of section 2 from 6 on, of
 * section 5 from 12 on, of section 6 from 7 on and of section 7 from 6 on.
 *
 * Reads `file`; writes `dest`, its first `octets` octets and no other, and these only if the whole
 * file walks clean. On a refusal `dest` is left as it was.
 *
 * Refusals: 1, then 19 if `dest` is shorter than the file, then those of a walk with room for every
 * line: 2 to 12.
 */
struct buttresk_store_answer buttresk_publish(const uint8_t *file, size_t octets, uint8_t *dest,
                                              size_t room);

/*
 * Writes one message of edition 2: section 0 with this discipline and two reserved octets (255 and
 * 255 by custom), the sections of a plan, and section 8.
 *
 * Reads `plan`, as many numbers as `plan_numbers` says, three to a section: its number, and the
 * offset and the length of its payload in `store`; a remainder under 3 is no section. Reads
 * `store`. Writes `dest`, as many octets from its start as the message has (16, and 5 and the
 * payload for each section, and 4), and no other. On a refusal `dest` is left as it was.
 *
 * Refusals: 15, 16, 17, 18, 19, each checked over the whole plan before the next.
 */
struct buttresk_store_answer buttresk_write(uint8_t discipline, uint8_t reserved_1,
                                            uint8_t reserved_2, const uint64_t *plan,
                                            size_t plan_numbers, const uint8_t *store,
                                            size_t store_octets, uint8_t *dest, size_t room);

/*
 * The inventory of a file: a line of text for each submessage, in the order of the file, of nine
 * fields with a colon between any two, closed by a line feed:
 *     message and submessage (each from 0), octet offset of section 0, discipline, category,
 *     parameter number, time unit, time, type of the first fixed surface
 * Each is a decimal number without leading zeros; any of the last five is `none` where there is
 * none, and time unit and time are both none or neither. Product templates are read by the Manual
 * (BUTTRESK_BY_MANUAL, below). The text has no 0 octet behind it.
 *
 * Reads `file`; writes `text`, as many octets from its start as the text has, and no other. On a
 * refusal `text` is left as it was. The text of a file without a submessage has no octets, and
 * always fits. No octet of it depends on a values octet.
 *
 * Refusals: those of a walk with room for every line, 1 to 12; then 20.
 */
struct buttresk_store_answer buttresk_inventory(const uint8_t *file, size_t octets, uint8_t *text,
                                                size_t room);

/* How many entries stand in the table, and how the reading of a list ended. */
struct buttresk_list_answer {
    uint64_t entries;
    uint64_t outcome;
    uint64_t place;
    uint64_t offset;
    uint64_t detail;
};

/*
 * Reads a list: a text in the form of an inventory, whether or not some file has these lines.
 *
 * Reads `text`; writes `entries`, as many numbers as `entry_numbers` says. An entry is 13 numbers:
 * message, submessage, offset, discipline; 1 or 0 for whether there is a category, and the
 * category; the same for the parameter number; 1 or 0 for whether there is a time, its unit, and
 * the time; 1 or 0 for whether there is a first surface type, and the type. A remainder under 13 is
 * no room.
 *
 * Message, submessage and offset are at most 2^40, the time is at most 2^32 - 1, the others at most
 * 255.
 *
 * Refusals, line by line: 21, also for a last line that no line feed closes; then 14. Entries that
 * were stored before a refusal stand, and all room beyond their count is left as it was.
 */
struct buttresk_list_answer buttresk_read_list(const uint8_t *text, size_t octets,
                                               uint64_t *entries, size_t entry_numbers);

/*
 * DECODED FIELDS. Each function below reads the octets of one section and writes nothing but its
 * answer. There is no refusal: where there are too few octets, `known` is 0. Section 0 is read
 * whole. A payload is what follows the header of 5 octets of a section 1 to 7: of its row in the
 * section table, `length` less 5 octets from `file + offset + 5` on. No answer depends on a values
 * octet.
 */

/* Section 0. */
struct buttresk_indicator_fields {
    uint8_t known;
    uint8_t discipline; /* Code table 0.0 */
    uint64_t total;     /* octets of the whole message */
};

/* Of the section's own 16 octets; fewer: none. Neither "GRIB" nor the edition nor the total length
   is tested: the walk does that. */
struct buttresk_indicator_fields buttresk_indicator(const uint8_t *section, size_t octets);

/* Section 1. */
struct buttresk_identification_fields {
    uint8_t known;
    uint8_t master;       /* version of the master tables, Code table 1.0 */
    uint8_t local;        /* version of local tables, Code table 1.1 */
    uint8_t significance; /* of the reference time, Code table 1.2 */
    uint8_t month;        /* the reference time is not checked: a month may be 13 */
    uint8_t day;
    uint8_t hour;
    uint8_t minute;
    uint8_t second;
    uint8_t status;     /* of production, Code table 1.3 */
    uint8_t processed;  /* type of processed data, Code table 1.4 */
    uint16_t centre;    /* Common code table C-11 */
    uint16_t subcentre; /* the centre's own */
    uint16_t year;
};

/* Of a payload; under 16 octets: none. */
struct buttresk_identification_fields buttresk_identification(const uint8_t *payload,
                                                              size_t octets);

/* Section 3. */
struct buttresk_grid_fields {
    uint8_t known;
    uint16_t template_number; /* Code table 3.1 */
    uint32_t points;
};

/* Of a payload; under 9 octets: none. */
struct buttresk_grid_fields buttresk_grid_definition(const uint8_t *payload, size_t octets);

/* A product field of one octet, or none. */
struct buttresk_octet_field {
    uint8_t known;
    uint8_t value;
};

/* A forecast time, or none. It has no sign: a top bit that is set makes a large number. */
struct buttresk_time_field {
    uint8_t known;
    uint8_t unit; /* Code table 4.4 */
    uint32_t time;
};

/* A fixed surface: it stands at value / 10^factor. All ones is no special case: a factor is then
   -127, a value -2,147,483,647. */
struct buttresk_surface {
    uint8_t type; /* Code table 4.5 */
    int32_t factor;
    int32_t value;
};

/* Both surfaces, or none. */
struct buttresk_surfaces_field {
    uint8_t known;
    struct buttresk_surface first;
    struct buttresk_surface second;
};

/*
 * The two readings of a product template: where its fields stand, and how many octets its time has.
 * They differ in two templates, and agree on every other number. Octets count from 1 in section 4.
 *   44  the time: as the crate octets 32 to 35, of which the last two are the first surface's type
 *       and scale factor as well; by the Manual octets 32 and 33, so at most 65,535, and there is a
 *       time where the section ends behind them;
 *   47  the generating process: as the crate octet 12, which is of the type of aerosol; by the
 *       Manual octet 25, as in 44 to 46.
 */
enum buttresk_reading {
    /* as the Rust crate grib 0.20.2 has it */
    BUTTRESK_AS_CRATE = 1,

    /* by the WMO Manual on Codes, volume I.2, in these two; in every other as the crate, also where
       the Manual has it otherwise, as it has the generating process of 83 and 254 */
    BUTTRESK_BY_MANUAL = 2
};

/* Section 4. `known` is of `coordinates` and `template_number`; every product field has its own. */
struct buttresk_product_fields {
    uint8_t known;
    uint16_t coordinates;
    uint16_t template_number;             /* Code table 4.0 */
    struct buttresk_octet_field category; /* Code table 4.1 */
    struct buttresk_octet_field number;   /* Code table 4.2 */
    struct buttresk_octet_field process;  /* type of generating process, Code table 4.3 */
    struct buttresk_time_field time;
    struct buttresk_surfaces_field surfaces;
};

/* Of a payload, by a reading; under 4 octets: none. A product field is none as well if the template
   is not supported, does not hold the field, or if the payload ends too soon. The reading is one of
   `enum buttresk_reading`. Any other number answers none for everything, `coordinates` and
   `template_number` too, and never by some other reading; it is taken in 64 bits, so that no larger
   number of the caller's is cut down to a 1 or a 2. */
struct buttresk_product_fields buttresk_product_definition(uint64_t reading, const uint8_t *payload,
                                                           size_t octets);

/* When and where the field is, of one section 4. Either may be there without the other. */
struct buttresk_when_where_fields {
    struct buttresk_time_field time;
    struct buttresk_surfaces_field surfaces;
};

/* Of a payload, by a reading: the two as `buttresk_product_definition` has them, without the rest.
   There is no call for one of them alone, so that the two are of one payload. By a number that is
   no reading both are none. */
struct buttresk_when_where_fields buttresk_when_and_where(uint64_t reading, const uint8_t *payload,
                                                          size_t octets);

/* Section 5. */
struct buttresk_representation_fields {
    uint8_t known;
    uint16_t template_number; /* Code table 5.0 */
    uint32_t points;          /* that have a value in section 7 */
};

/* Of a payload; under 6 octets: none. */
struct buttresk_representation_fields buttresk_representation(const uint8_t *payload,
                                                              size_t octets);

/* Section 6. */
struct buttresk_bit_map_fields {
    uint8_t known;
    uint8_t indicator; /* Code table 6.0 */
};

/* Of a payload; an empty one: none. */
struct buttresk_bit_map_fields buttresk_bit_map(const uint8_t *payload, size_t octets);

#ifdef __cplusplus
}
#endif

#endif
