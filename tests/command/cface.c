/*
 * The C face, called from C: document 01's sample A and some of its neighbours, by
 * include/buttresk.h and the archive.
 *
 *     make build/cface && build/cface
 *
 * What is expected is written by hand from documents 01 and 02. It prints each check that fails,
 * and the count.
 */
#include "buttresk.h"
#include <stdio.h>
#include <string.h>

static int checks, failed;

#define EXPECT(holds)                                                                              \
    do {                                                                                           \
        checks++;                                                                                  \
        if (!(holds)) {                                                                            \
            failed++;                                                                              \
            printf("%s:%d: not so: %s\n", __FILE__, __LINE__, #holds);                             \
        }                                                                                          \
    } while (0)

/* A file that is built section by section. No payload octet is 0, so that a blanked one is seen. */
struct file {
    uint8_t octets[256];
    size_t size;
};

static void add(struct file *f, const void *octets, size_t size)
{
    memcpy(f->octets + f->size, octets, size);
    f->size += size;
}

static void add_start(struct file *f, uint8_t total)
{
    const uint8_t start[16] = {'G', 'R', 'I', 'B', 255, 255, 10, 2, 0, 0, 0, 0, 0, 0, 0, total};
    add(f, start, sizeof start);
}

static void add_section(struct file *f, uint8_t number, uint8_t payload)
{
    const uint8_t header[5] = {0, 0, 0, (uint8_t)(payload + 5), number};
    add(f, header, sizeof header);
    for (uint8_t i = 0; i < payload; i++) {
        f->octets[f->size++] = (uint8_t)(i + 1);
    }
}

/* Document 01's sample A: 0, 1, 3, 4, 5, 6, 7, 8 with least payloads, 86 octets. */
static struct file sample_a(void)
{
    struct file f = {.size = 0};
    add_start(&f, 86);
    add_section(&f, 1, 16);
    add_section(&f, 3, 9);
    add_section(&f, 4, 4);
    add_section(&f, 5, 6);
    add_section(&f, 6, 1);
    add_section(&f, 7, 0);
    add(&f, "7777", 4);
    return f;
}

static int ended(struct buttresk_walk_answer a, uint64_t outcome, uint64_t place, uint64_t offset,
                 uint64_t detail)
{
    return a.outcome == outcome && a.place == place && a.offset == offset && a.detail == detail;
}

static int counted(struct buttresk_walk_answer a, uint64_t sections, uint64_t submessages,
                   uint64_t messages)
{
    return a.sections == sections && a.submessages == submessages && a.messages == messages;
}

/* Room for 8 rows and 1 line, with remainders that are one number short of another; 99 stands where
   nothing is stored. */
enum { ROWS = 8 * BUTTRESK_ROW + 2, LINES = BUTTRESK_LINE + 14 };
static uint64_t rows[ROWS], lines[LINES];

static struct buttresk_walk_answer walk(const uint8_t *octets, size_t size, size_t row_numbers,
                                        size_t line_numbers)
{
    for (int i = 0; i < ROWS; i++) {
        rows[i] = 99;
    }
    for (int i = 0; i < LINES; i++) {
        lines[i] = 99;
    }
    return buttresk_walk(octets, size, rows, row_numbers, lines, line_numbers);
}

static void walks(void)
{
    static const uint64_t a_rows[ROWS] = {0,  0,  16, 1,  16, 21, 3,  37, 14, 4,  51, 9,  5,
                                          60, 11, 6,  71, 6,  7,  77, 5,  8,  82, 4,  99, 99};
    /* message, submessage; no section 2; closed; nine places; offset, total length */
    static const uint64_t a_line[15] = {0, 0, 0, 1, 0, 1, 0, 2, 3, 4, 5, 6, 7, 0, 86};
    struct file a = sample_a();
    struct buttresk_walk_answer r = walk(a.octets, a.size, ROWS, LINES);
    EXPECT(a.size == 86);
    EXPECT(counted(r, 8, 1, 1) && ended(r, BUTTRESK_DONE, 0, 0, 0));
    EXPECT(memcmp(rows, a_rows, sizeof a_rows) == 0);
    EXPECT(memcmp(lines, a_line, sizeof a_line) == 0);
    EXPECT(lines[15] == 99 && lines[LINES - 1] == 99);

    /* a remainder is no room: 7 rows and 2 numbers, 14 numbers of a line */
    r = walk(a.octets, a.size, 23, LINES);
    EXPECT(counted(r, 7, 0, 0) && ended(r, BUTTRESK_SECTION_TABLE_FULL, 7, 82, 0));
    EXPECT(rows[21] == 99 && rows[22] == 99 && lines[0] == 99);
    r = walk(a.octets, a.size, ROWS, 14);
    EXPECT(counted(r, 7, 0, 0) && ended(r, BUTTRESK_SUBMESSAGE_TABLE_FULL, 7, 82, 0));
    EXPECT(lines[0] == 99);
    r = walk(a.octets, a.size, ROWS, 15);
    EXPECT(counted(r, 8, 1, 1) && ended(r, BUTTRESK_DONE, 0, 0, 0));
    EXPECT(lines[14] == 86 && lines[15] == 99);

    /* no octets, and no room */
    r = walk(a.octets, 0, 0, 0);
    EXPECT(counted(r, 0, 0, 0) && ended(r, BUTTRESK_DONE, 0, 0, 0));

    /* over before its section 8 */
    r = walk(a.octets, 82, ROWS, LINES);
    EXPECT(counted(r, 7, 0, 0) && ended(r, BUTTRESK_INPUT_OVER, 6, 77, 0));
}

/* a section 2, and a 4 right after 1 */
static void walks_of_other_orders(void)
{
    struct file a = sample_a();
    struct file two = {.size = 0};
    add_start(&two, 92);
    add_section(&two, 1, 16);
    add_section(&two, 2, 1);
    add(&two, a.octets + 37, 49);
    struct buttresk_walk_answer r = walk(two.octets, two.size, ROWS, LINES);
    EXPECT(counted(r, 8, 0, 0) && ended(r, BUTTRESK_SECTION_TABLE_FULL, 8, 88, 0));
    uint64_t more[9 * BUTTRESK_ROW];
    static const uint64_t two_line[15] = {0, 0, 1, 1, 0, 1, 2, 3, 4, 5, 6, 7, 8, 0, 92};
    r = buttresk_walk(two.octets, two.size, more, 9 * BUTTRESK_ROW, lines, LINES);
    EXPECT(counted(r, 9, 1, 1) && ended(r, BUTTRESK_DONE, 0, 0, 0));
    EXPECT(memcmp(lines, two_line, sizeof two_line) == 0);
    struct file four = {.size = 0};
    add_start(&four, 46);
    add_section(&four, 1, 16);
    add_section(&four, 4, 4);
    r = walk(four.octets, four.size, ROWS, LINES);
    EXPECT(counted(r, 2, 0, 0) && ended(r, BUTTRESK_NO_GRID, 2, 37, 4));
}

/* Document 01's sample of 117 octets: A with 4, 5, 6 and 7 again before its end. */
static void add_117(struct file *f)
{
    struct file a = sample_a();
    add_start(f, 117);
    add(f, a.octets + 16, 66);
    add(f, a.octets + 51, 35);
}

/* The line of a message that goes on, and the line that closes it. */
static void walks_of_messages_that_go_on(void)
{
    static const uint64_t two_lines[30] = {0, 0, 0, 0, 0, 1, 0, 2, 3, 4, 5, 6,  0,  0, 117,
                                           0, 1, 0, 1, 0, 1, 0, 2, 7, 8, 9, 10, 11, 0, 117};
    uint64_t more[12 * BUTTRESK_ROW], two[30];
    struct file f = {.size = 0};
    add_117(&f);
    struct buttresk_walk_answer r = buttresk_walk(f.octets, f.size, more, 36, two, 30);
    EXPECT(f.size == 117 && counted(r, 12, 2, 1) && ended(r, BUTTRESK_DONE, 0, 0, 0));
    EXPECT(memcmp(two, two_lines, sizeof two_lines) == 0);

    /* one number short of the second line, and of the first */
    r = buttresk_walk(f.octets, f.size, more, 36, lines, LINES);
    EXPECT(counted(r, 11, 1, 0) && ended(r, BUTTRESK_SUBMESSAGE_TABLE_FULL, 11, 113, 0));
    r = walk(f.octets, f.size, ROWS, 14);
    EXPECT(counted(r, 7, 0, 0) && ended(r, BUTTRESK_SUBMESSAGE_TABLE_FULL, 7, 82, 0));
    EXPECT(lines[0] == 99);
}

/* Offsets and places count from the file's start, and a second message has its own. */
static void walks_of_later_messages(void)
{
    static const uint64_t behind_a[45] = {0, 0, 0, 1, 0, 1, 0, 2,  3,  4,  5,  6,  7,  0,  86,
                                          1, 0, 0, 0, 8, 9, 0, 10, 11, 12, 13, 14, 0,  86, 117,
                                          1, 1, 0, 1, 8, 9, 0, 10, 15, 16, 17, 18, 19, 86, 117};
    uint64_t more[20 * BUTTRESK_ROW], three[45];
    struct file f = sample_a(), g = {.size = 0};
    add_117(&f);
    struct buttresk_walk_answer r = buttresk_walk(f.octets, f.size, more, 60, three, 45);
    EXPECT(f.size == 203 && counted(r, 20, 3, 2) && ended(r, BUTTRESK_DONE, 0, 0, 0));
    EXPECT(memcmp(three, behind_a, sizeof behind_a) == 0);

    add(&g, "abc", 3);
    add_117(&g);
    r = buttresk_walk(g.octets, g.size, more, 60, three, 45);
    EXPECT(g.size == 120 && counted(r, 12, 2, 1) && ended(r, BUTTRESK_DONE, 0, 0, 0));
    EXPECT(three[3] == 0 && three[12] == 0 && three[13] == 3 && three[14] == 117);
    EXPECT(three[18] == 1 && three[27] == 11 && three[28] == 3 && three[29] == 117);
}

/* The total length is the stated one, whatever the file has of it; the largest is 2^64 - 1. */
static void walks_of_stated_totals(void)
{
    static const uint64_t goes_on[13] = {0, 0, 0, 0, 0, 1, 0, 2, 3, 4, 5, 6, 0};
    struct file f = {.size = 0}, a = sample_a();
    add_117(&f);
    memset(f.octets + 8, 255, 8);
    struct buttresk_walk_answer r = walk(f.octets, 91, ROWS, LINES);
    EXPECT(counted(r, 8, 1, 0) && ended(r, BUTTRESK_INPUT_OVER, 7, 82, 0));
    EXPECT(memcmp(lines, goes_on, sizeof goes_on) == 0);
    EXPECT(lines[13] == 0 && lines[14] == UINT64_MAX);

    /* a section 0 inside an open message: the line is the old message's */
    struct file old = {.size = 0};
    add_start(&old, 82);
    add(&old, a.octets + 16, 66);
    add(&old, a.octets, a.size);
    r = walk(old.octets, old.size, ROWS, LINES);
    EXPECT(counted(r, 7, 1, 0) && ended(r, BUTTRESK_MISPLACED, 7, 82, 0));
    EXPECT(memcmp(lines, goes_on, sizeof goes_on) == 0);
    EXPECT(lines[13] == 0 && lines[14] == 82);
}

static void copies(void)
{
    struct file a = sample_a();
    uint8_t dest[88], untouched[88];
    memset(untouched, 77, sizeof untouched);
    memset(dest, 77, sizeof dest);
    struct buttresk_store_answer r = buttresk_publish(a.octets, a.size, dest, 85);
    EXPECT(r.outcome == BUTTRESK_NO_ROOM && r.written == 0 &&
           memcmp(dest, untouched, sizeof dest) == 0);
    r = buttresk_publish(a.octets, 82, dest, sizeof dest);
    EXPECT(r.outcome == BUTTRESK_INPUT_OVER && r.place == 6 && r.offset == 77 && r.detail == 0 &&
           r.written == 0);
    EXPECT(memcmp(dest, untouched, sizeof dest) == 0);

    /* in A no octet is a value but what is put before and behind it */
    r = buttresk_publish(a.octets, a.size, dest, sizeof dest);
    EXPECT(r.outcome == BUTTRESK_DONE && r.place == 0 && r.offset == 0 && r.detail == 0 &&
           r.written == 86);
    EXPECT(memcmp(dest, a.octets, 86) == 0 && dest[86] == 77 && dest[87] == 77);

    /* a section 5 of one octet more, and one octet before the message */
    struct file b = {.size = 0};
    add(&b, "x", 1);
    add_start(&b, 87);
    add(&b, a.octets + 16, 44);
    add_section(&b, 5, 7);
    add(&b, a.octets + 71, 15);
    r = buttresk_publish(b.octets, b.size, dest, sizeof dest);
    EXPECT(b.size == 88 && r.outcome == BUTTRESK_DONE && r.written == 88);
    EXPECT(dest[0] == 0 && dest[1] == 'G' && dest[71] == 6 && b.octets[72] == 7 && dest[72] == 0 &&
           dest[73] == 0 && dest[76] == 6);
}

/* By each function that walks a file: the place, the offset and the count of missing octets of one
 * that is cut, and nothing written. */
static void expect_cut(const uint8_t *octets, size_t size, uint64_t place, uint64_t offset,
                       uint64_t missing)
{
    uint8_t dest[256];
    memset(dest, 77, sizeof dest);
    struct buttresk_walk_answer r = walk(octets, size, ROWS, LINES);
    EXPECT(counted(r, place, 0, 0) && ended(r, BUTTRESK_CUT, place, offset, missing));
    struct buttresk_store_answer s = buttresk_publish(octets, size, dest, sizeof dest);
    EXPECT(s.outcome == BUTTRESK_CUT && s.place == place && s.offset == offset &&
           s.detail == missing && s.written == 0 && dest[0] == 77);
    s = buttresk_inventory(octets, size, dest, sizeof dest);
    EXPECT(s.outcome == BUTTRESK_CUT && s.place == place && s.offset == offset &&
           s.detail == missing && s.written == 0 && dest[0] == 77);
}

/* A's sections start at 0, 16, 37, 51, 60, 71, 77 and 82. */
static void cuts(void)
{
    struct file a = sample_a();
    /* a header: 5 less what is left */
    expect_cut(a.octets, 78, 6, 77, 4);
    expect_cut(a.octets, 40, 2, 37, 2);
    expect_cut(a.octets, 81, 6, 77, 1);
    /* a section 8: 4 less what is left */
    expect_cut(a.octets, 83, 7, 82, 3);
    expect_cut(a.octets, 84, 7, 82, 2);
    expect_cut(a.octets, 85, 7, 82, 1);
    /* a payload: its stated end, here 51, less the file's length */
    expect_cut(a.octets, 42, 2, 37, 9);
    expect_cut(a.octets, 45, 2, 37, 6);
    expect_cut(a.octets, 50, 2, 37, 1);
    /* a section 6 of length 5, whose stated end is the file's */
    struct file bare = {.size = 0};
    add(&bare, a.octets, 71);
    add_section(&bare, 6, 0);
    expect_cut(bare.octets, 76, 5, 71, 1);
    /* the longest: 16 + 4,294,967,295 - 21 */
    const uint8_t longest[5] = {255, 255, 255, 255, 1};
    struct file one = {.size = 0};
    add_start(&one, 21);
    add(&one, longest, sizeof longest);
    expect_cut(one.octets, 21, 1, 16, 4294967290);
}

static void writes(void)
{
    struct file a = sample_a();
    uint8_t dest[87];
    uint64_t plan[6 * BUTTRESK_PART + 1];
    struct buttresk_walk_answer r = walk(a.octets, a.size, ROWS, LINES);
    for (uint64_t i = 1; i + 1 < r.sections; i++) {
        plan[(i - 1) * 3] = rows[i * 3];
        plan[(i - 1) * 3 + 1] = rows[i * 3 + 1] + 5;
        plan[(i - 1) * 3 + 2] = rows[i * 3 + 2] - 5;
    }
    memset(dest, 77, sizeof dest);
    struct buttresk_store_answer w =
        buttresk_write(10, 255, 255, plan, 19, a.octets, a.size, dest, sizeof dest);
    EXPECT(w.outcome == BUTTRESK_DONE && w.place == 0 && w.offset == 0 && w.detail == 0 &&
           w.written == 86);
    EXPECT(memcmp(dest, a.octets, 86) == 0 && dest[86] == 77);

    memset(dest, 77, sizeof dest);
    w = buttresk_write(10, 255, 255, plan, 18, a.octets, a.size, dest, 85);
    EXPECT(w.outcome == BUTTRESK_NO_ROOM && w.written == 0 && dest[0] == 77);
    w = buttresk_write(10, 255, 255, plan, 15, a.octets, a.size, dest, sizeof dest);
    EXPECT(w.outcome == BUTTRESK_NOT_ONE_MESSAGE && w.detail == 5 && w.written == 0 &&
           dest[0] == 77);
    plan[2 * 3 + 1] = a.size;
    w = buttresk_write(10, 255, 255, plan, 18, a.octets, a.size, dest, sizeof dest);
    EXPECT(w.outcome == BUTTRESK_OUTSIDE_STORE && w.detail == 2 && w.place == 0 && w.offset == 0 &&
           w.written == 0 && dest[0] == 77);
}

/* 99 stands where nothing is written. */
static void inventories(void)
{
    static const char line[] = "0:0:0:10:none:none:none:none:none\n";
    uint8_t text[40];
    struct file a = sample_a();
    memset(text, 99, sizeof text);
    struct buttresk_store_answer r = buttresk_inventory(a.octets, a.size, text, 33);
    EXPECT(r.outcome == BUTTRESK_TEXT_TOO_SMALL && r.place == 0 && r.offset == 0 && r.detail == 0 &&
           r.written == 0 && text[0] == 99);
    r = buttresk_inventory(a.octets, a.size, text, sizeof text);
    EXPECT(r.outcome == BUTTRESK_DONE && r.written == 34 && memcmp(text, line, 34) == 0 &&
           text[34] == 99);
    r = buttresk_inventory(a.octets, 84, text, 0);
    EXPECT(r.outcome == BUTTRESK_CUT && r.place == 7 && r.offset == 82 && r.detail == 2 &&
           r.written == 0);
    r = buttresk_inventory(a.octets, 0, text, 0);
    EXPECT(r.outcome == BUTTRESK_DONE && r.written == 0);
}

static int stored(struct buttresk_store_answer a, uint64_t outcome, uint64_t place, uint64_t offset,
                  uint64_t detail, uint64_t written)
{
    return a.outcome == outcome && a.place == place && a.offset == offset && a.detail == detail &&
           a.written == written;
}

static int listed(struct buttresk_list_answer a, uint64_t entries, uint64_t outcome,
                  uint64_t detail)
{
    return a.entries == entries && a.outcome == outcome && a.place == 0 && a.offset == 0 &&
           a.detail == detail;
}

static struct buttresk_list_answer read_text(const char *text, uint64_t *table, size_t numbers)
{
    for (int i = 0; i < 2 * BUTTRESK_ENTRY; i++) {
        table[i] = 99;
    }
    return buttresk_read_list((const uint8_t *)text, strlen(text), table, numbers);
}

static void lists(void)
{
    static const uint64_t expected[2 * BUTTRESK_ENTRY] = {1,   2,          1099511627776,
                                                          255, 1,          8,
                                                          0,   0,          1,
                                                          9,   4294967295, 1,
                                                          103, 0,          0,
                                                          0,   0,          0,
                                                          0,   1,          0,
                                                          0,   0,          0,
                                                          0,   0};
    static const char two[] =
        "1:2:1099511627776:255:8:none:9:4294967295:103\n0:0:0:0:none:0:none:none:none\n";
    uint64_t table[2 * BUTTRESK_ENTRY];
    EXPECT(listed(read_text(two, table, 26), 2, BUTTRESK_DONE, 0) &&
           memcmp(table, expected, sizeof table) == 0);
    EXPECT(listed(read_text(two, table, 25), 1, BUTTRESK_SUBMESSAGE_TABLE_FULL, 0) &&
           table[12] == 103 && table[13] == 99);
    EXPECT(listed(read_text("0:0:0:0:0:0:0:0:0\n0:0:0:0:0:0:0:0:00\n", table, 26), 1,
                  BUTTRESK_LINE_NOT_IN_FORM, 2));
    EXPECT(table[4] == 1 && table[13] == 99);
    EXPECT(listed(read_text("0:0:0:0:0:0:0:0:0", table, 26), 0, BUTTRESK_LINE_NOT_IN_FORM, 1) &&
           table[0] == 99);
    EXPECT(listed(read_text("", table, 0), 0, BUTTRESK_DONE, 0));
}

static void fields(void)
{
    struct file a = sample_a();
    struct buttresk_indicator_fields zero = buttresk_indicator(a.octets, 16);
    EXPECT(zero.known == 1 && zero.discipline == 10 && zero.total == 86);
    EXPECT(buttresk_indicator(a.octets, 15).known == 0);

    struct buttresk_identification_fields one = buttresk_identification(a.octets + 21, 16);
    EXPECT(one.known == 1 && one.centre == 0x0102 && one.subcentre == 0x0304 && one.master == 5 &&
           one.local == 6);
    EXPECT(one.significance == 7 && one.year == 0x0809 && one.month == 10 && one.day == 11 &&
           one.hour == 12 && one.minute == 13);
    EXPECT(one.second == 14 && one.status == 15 && one.processed == 16);
    EXPECT(buttresk_identification(a.octets + 21, 15).known == 0);

    struct buttresk_grid_fields three = buttresk_grid_definition(a.octets + 42, 9);
    EXPECT(three.known == 1 && three.points == 0x02030405 && three.template_number == 0x0809);
    EXPECT(buttresk_grid_definition(a.octets + 42, 8).known == 0);

    struct buttresk_representation_fields five = buttresk_representation(a.octets + 65, 6);
    EXPECT(five.known == 1 && five.points == 0x01020304 && five.template_number == 0x0506);
    EXPECT(buttresk_representation(a.octets + 65, 5).known == 0);

    struct buttresk_bit_map_fields six = buttresk_bit_map(a.octets + 76, 1);
    EXPECT(six.known == 1 && six.indicator == 1);
    EXPECT(buttresk_bit_map(a.octets + 76, 0).known == 0);
}

/* --- Section 4, by both readings --- */

enum { READINGS = 2 };
static const uint64_t readings[READINGS] = {BUTTRESK_AS_CRATE, BUTTRESK_BY_MANUAL};

static int is_octet(struct buttresk_octet_field f, uint8_t value)
{
    return f.known == 1 && f.value == value;
}

static int is_time(struct buttresk_time_field f, uint8_t unit, uint32_t time)
{
    return f.known == 1 && f.unit == unit && f.time == time;
}

static int is_surface(struct buttresk_surface s, uint8_t type, int32_t factor, int32_t value)
{
    return s.type == type && s.factor == factor && s.value == value;
}

static int no_octet(struct buttresk_octet_field f)
{
    return f.known == 0 && f.value == 0;
}

static int no_time(struct buttresk_time_field f)
{
    return f.known == 0 && f.unit == 0 && f.time == 0;
}

static int no_surfaces(struct buttresk_surfaces_field f)
{
    return f.known == 0 && is_surface(f.first, 0, 0, 0) && is_surface(f.second, 0, 0, 0);
}

static int no_product(struct buttresk_product_fields p)
{
    return no_octet(p.category) && no_octet(p.number) && no_octet(p.process) && no_time(p.time) &&
           no_surfaces(p.surfaces);
}

static int nothing(struct buttresk_product_fields p)
{
    return p.known == 0 && p.coordinates == 0 && p.template_number == 0 && no_product(p);
}

/* Template 0 has a product field in each of its places, as the Manual lays them out. */
static const uint8_t whole[29] = {0, 3, 0,   0,    1,    2, 4, 0, 0,   0, 0,    0,    11,   0,   0,
                                  1, 2, 103, 0x81, 0x80, 0, 0, 5, 255, 2, 0x7f, 0xff, 0xff, 0xff};

/* What both readings answer alike. */
static void products(uint64_t reading)
{
    struct buttresk_product_fields p = buttresk_product_definition(reading, whole, sizeof whole);
    EXPECT(p.known == 1 && p.coordinates == 3 && p.template_number == 0);
    EXPECT(is_octet(p.category, 1) && is_octet(p.number, 2));
    EXPECT(is_octet(p.process, 4));
    EXPECT(is_time(p.time, 11, 0x0102));
    EXPECT(p.surfaces.known == 1 && is_surface(p.surfaces.first, 103, -1, -5));
    EXPECT(is_surface(p.surfaces.second, 255, 2, 2147483647));

    /* an octet less: both surfaces or none; five octets: a category and no number */
    p = buttresk_product_definition(reading, whole, 28);
    EXPECT(p.time.known == 1 && no_surfaces(p.surfaces));
    p = buttresk_product_definition(reading, whole, 5);
    EXPECT(p.known == 1 && is_octet(p.category, 1) && no_octet(p.number) && no_octet(p.process) &&
           no_time(p.time));
    EXPECT(nothing(buttresk_product_definition(reading, whole, 3)));

    /* an unsupported template */
    const uint8_t other[6] = {0, 3, 0, 16, 1, 2};
    p = buttresk_product_definition(reading, other, sizeof other);
    EXPECT(p.known == 1 && p.coordinates == 3 && p.template_number == 16 && no_product(p));

    /* 83 and 254 stay as the crate: the process is at index 2 */
    const uint8_t stays[2][7] = {{0, 0, 0, 83, 0, 0, 2}, {0, 0, 0, 254, 0, 0, 2}};
    EXPECT(is_octet(buttresk_product_definition(reading, stays[0], 7).process, 2));
    EXPECT(is_octet(buttresk_product_definition(reading, stays[1], 7).process, 2));
}

/* Template 44: 21 octets of zero, unit 1, two octets of time, and the surfaces. */
static const uint8_t aerosol[40] = {0, 0, 0, 44, [25] = 1, 0, 6, 5, 0x82, 0,
                                    0, 0, 1, 7,  0,        0, 0, 0, 2};

static int has_aerosol_surfaces(struct buttresk_product_fields p)
{
    return p.surfaces.known == 1 && is_surface(p.surfaces.first, 5, -2, 1) &&
           is_surface(p.surfaces.second, 7, 0, 2);
}

/* As the crate the time goes on into the first surface: 0x00060582. */
static void times_of_44(void)
{
    struct buttresk_product_fields p = buttresk_product_definition(BUTTRESK_AS_CRATE, aerosol, 40);
    EXPECT(p.known == 1 && p.template_number == 44 && is_octet(p.process, 0));
    EXPECT(is_time(p.time, 1, 394626) && has_aerosol_surfaces(p));
    p = buttresk_product_definition(BUTTRESK_BY_MANUAL, aerosol, 40);
    EXPECT(p.known == 1 && p.template_number == 44 && is_octet(p.process, 0));
    EXPECT(is_time(p.time, 1, 6) && has_aerosol_surfaces(p));

    /* a payload that ends behind octet 35 of its section, the time's last as the crate */
    EXPECT(is_time(buttresk_product_definition(BUTTRESK_AS_CRATE, aerosol, 30).time, 1, 394626));
    EXPECT(no_time(buttresk_product_definition(BUTTRESK_AS_CRATE, aerosol, 29).time));
    EXPECT(is_time(buttresk_product_definition(BUTTRESK_BY_MANUAL, aerosol, 29).time, 1, 6));

    /* behind octet 33, the time's last by the Manual */
    p = buttresk_product_definition(BUTTRESK_AS_CRATE, aerosol, 28);
    EXPECT(no_time(p.time) && no_surfaces(p.surfaces) && is_octet(p.process, 0));
    p = buttresk_product_definition(BUTTRESK_BY_MANUAL, aerosol, 28);
    EXPECT(is_time(p.time, 1, 6) && no_surfaces(p.surfaces) && is_octet(p.process, 0));

    /* and before it */
    for (int i = 0; i < READINGS; i++) {
        p = buttresk_product_definition(readings[i], aerosol, 27);
        EXPECT(no_time(p.time) && no_surfaces(p.surfaces) && is_octet(p.process, 0));
    }
}

/* Two octets have no sign, and all ones is a number. */
static void large_times_of_44(void)
{
    static const struct {
        uint8_t high, low;
        uint32_t by_manual, as_crate;
    } cases[] = {
        {0x7f, 0xff, 32767, 2147419522},
        {0x80, 0x00, 32768, 2147485058},
        {0xff, 0xfe, 65534, 4294837634},
        {0xff, 0xff, 65535, 4294903170},
    };
    uint8_t payload[sizeof aerosol];
    memcpy(payload, aerosol, sizeof aerosol);
    for (size_t i = 0; i < sizeof cases / sizeof cases[0]; i++) {
        payload[26] = cases[i].high;
        payload[27] = cases[i].low;
        struct buttresk_product_fields p =
            buttresk_product_definition(BUTTRESK_BY_MANUAL, payload, sizeof payload);
        EXPECT(is_time(p.time, 1, cases[i].by_manual) && has_aerosol_surfaces(p));
        p = buttresk_product_definition(BUTTRESK_AS_CRATE, payload, sizeof payload);
        EXPECT(is_time(p.time, 1, cases[i].as_crate) && has_aerosol_surfaces(p));
    }
}

static void processes_of_47(void)
{
    const uint8_t payload[20] = {0, 0, 0, 47, 0, 0, 9, [19] = 4};
    EXPECT(is_octet(buttresk_product_definition(BUTTRESK_AS_CRATE, payload, 20).process, 9));
    EXPECT(is_octet(buttresk_product_definition(BUTTRESK_BY_MANUAL, payload, 20).process, 4));
    EXPECT(is_octet(buttresk_product_definition(BUTTRESK_AS_CRATE, payload, 19).process, 9));
    EXPECT(no_octet(buttresk_product_definition(BUTTRESK_BY_MANUAL, payload, 19).process));
    const uint8_t seven[7] = {0, 0, 0, 47, 0, 0, 2};
    EXPECT(is_octet(buttresk_product_definition(BUTTRESK_AS_CRATE, seven, 7).process, 2));
    EXPECT(no_octet(buttresk_product_definition(BUTTRESK_BY_MANUAL, seven, 7).process));
}

/* 45 to 47 have the same start as 44, and a time of four octets by both readings. */
static void neighbours_of_44(void)
{
    uint8_t payload[42] = {0, 0,    0, 0, 20, 1, 9, [19] = 4, [25] = 1, 0, 6, 5, 0x82,
                           5, 0x82, 0, 0, 0,  1, 7, 0,        0,        0, 0, 2};
    for (uint8_t number = 45; number <= 47; number++) {
        payload[3] = number;
        for (int i = 0; i < READINGS; i++) {
            struct buttresk_product_fields p =
                buttresk_product_definition(readings[i], payload, sizeof payload);
            EXPECT(p.known == 1 && p.template_number == number);
            EXPECT(is_octet(p.category, 20) && is_octet(p.number, 1));
            EXPECT(is_time(p.time, 1, 394626) && has_aerosol_surfaces(p));
            EXPECT(is_octet(p.process, number == 47 && readings[i] == BUTTRESK_AS_CRATE ? 9 : 4));
            EXPECT(no_time(buttresk_product_definition(readings[i], payload, 29).time));
        }
    }
}

/* Numbers that are no reading; some would be 1 or 2 in 8, 16 or 32 bits. */
static void no_readings(void)
{
    static const uint64_t numbers[] = {0,     3,           257,         258,       65537,
                                       65538, 0x100000001, 0x100000002, UINT64_MAX};
    for (size_t i = 0; i < sizeof numbers / sizeof numbers[0]; i++) {
        EXPECT(nothing(buttresk_product_definition(numbers[i], whole, sizeof whole)));
        EXPECT(nothing(buttresk_product_definition(numbers[i], aerosol, sizeof aerosol)));
        struct buttresk_when_where_fields w =
            buttresk_when_and_where(numbers[i], aerosol, sizeof aerosol);
        EXPECT(no_time(w.time) && no_surfaces(w.surfaces));
    }
}

static int same_surface(struct buttresk_surface a, struct buttresk_surface b)
{
    return a.type == b.type && a.factor == b.factor && a.value == b.value;
}

/* Time and surfaces of one call are those among the fields of the other. */
static int as_before(uint64_t reading, const uint8_t *payload, size_t octets)
{
    struct buttresk_when_where_fields w = buttresk_when_and_where(reading, payload, octets);
    struct buttresk_product_fields p = buttresk_product_definition(reading, payload, octets);
    return w.time.known == p.time.known && w.time.unit == p.time.unit &&
           w.time.time == p.time.time && w.surfaces.known == p.surfaces.known &&
           same_surface(w.surfaces.first, p.surfaces.first) &&
           same_surface(w.surfaces.second, p.surfaces.second);
}

/* Of 0, 32, 88 and 44: both, the time alone, the surfaces alone, and the time by each reading. A 32
   has no index for surfaces; an 88 has them at 5, before its time at 26. */
static void each_by_itself(uint64_t reading)
{
    uint8_t satellite[sizeof whole];
    memcpy(satellite, whole, sizeof whole);
    satellite[3] = 32;
    struct buttresk_when_where_fields w = buttresk_when_and_where(reading, whole, sizeof whole);
    EXPECT(is_time(w.time, 11, 0x0102) && w.surfaces.known == 1);
    EXPECT(is_surface(w.surfaces.first, 103, -1, -5));
    EXPECT(is_surface(w.surfaces.second, 255, 2, 2147483647));
    w = buttresk_when_and_where(reading, satellite, sizeof satellite);
    EXPECT(is_time(w.time, 11, 0x0102) && no_surfaces(w.surfaces));

    const uint8_t local[40] = {0, 0, 0, 88, [9] = 5, 0x82,     0, 0, 0, 1, 7,
                               0, 0, 0, 0,  2,       [30] = 1, 0, 0, 0, 6};
    w = buttresk_when_and_where(reading, local, 21);
    EXPECT(no_time(w.time) && w.surfaces.known == 1 && is_surface(w.surfaces.first, 5, -2, 1) &&
           is_surface(w.surfaces.second, 7, 0, 2));
    w = buttresk_when_and_where(reading, local, 20);
    EXPECT(no_time(w.time) && no_surfaces(w.surfaces));
    w = buttresk_when_and_where(reading, local, 35);
    EXPECT(is_time(w.time, 1, 6) && w.surfaces.known == 1);

    w = buttresk_when_and_where(reading, aerosol, sizeof aerosol);
    EXPECT(is_time(w.time, 1, reading == BUTTRESK_BY_MANUAL ? 6 : 394626));
    EXPECT(w.surfaces.known == 1 && is_surface(w.surfaces.first, 5, -2, 1) &&
           is_surface(w.surfaces.second, 7, 0, 2));
}

/* A payload of every template number, and one of every length. */
static void when_and_where(void)
{
    uint8_t payload[60];
    int equal = 1;
    for (size_t i = 0; i < sizeof payload; i++) {
        payload[i] = (uint8_t)(17 * i + 3);
    }
    for (int i = 0; i < READINGS; i++) {
        each_by_itself(readings[i]);
        for (uint32_t number = 0; number < 65536; number++) {
            payload[2] = (uint8_t)(number >> 8), payload[3] = (uint8_t)number;
            equal = equal && as_before(readings[i], payload, sizeof payload);
        }
        for (size_t octets = 0; octets <= sizeof aerosol; octets++) {
            equal = equal && as_before(readings[i], aerosol, octets);
        }
    }
    EXPECT(equal);
}

/* The inventory reads by the Manual. */
static void inventory_of_44(void)
{
    static const char line[] = "0:0:0:10:0:0:1:6:5\n";
    uint8_t text[40];
    struct file f = {.size = 0}, a = sample_a();
    add_start(&f, 122);
    add(&f, a.octets + 16, 35);
    add_section(&f, 4, sizeof aerosol);
    memcpy(f.octets + f.size - sizeof aerosol, aerosol, sizeof aerosol);
    add(&f, a.octets + 60, 26);
    struct buttresk_store_answer r = buttresk_inventory(f.octets, f.size, text, sizeof text);
    EXPECT(f.size == 122 && stored(r, BUTTRESK_DONE, 0, 0, 0, 19) && memcmp(text, line, 19) == 0);
}

static void products_by_both_readings(void)
{
    EXPECT(BUTTRESK_AS_CRATE == 1 && BUTTRESK_BY_MANUAL == 2);
    products(BUTTRESK_AS_CRATE);
    products(BUTTRESK_BY_MANUAL);
    times_of_44();
    large_times_of_44();
    processes_of_47();
    neighbours_of_44();
    no_readings();
    when_and_where();
    inventory_of_44();
}

/* Every function with null for all that it is lent, and a count of 0. A pointer that is followed
   ends the program: nothing is at null. */
static void nulls(void)
{
    struct buttresk_walk_answer w = buttresk_walk(NULL, 0, NULL, 0, NULL, 0);
    EXPECT(counted(w, 0, 0, 0) && ended(w, BUTTRESK_DONE, 0, 0, 0));
    struct buttresk_store_answer s = buttresk_publish(NULL, 0, NULL, 0);
    EXPECT(stored(s, BUTTRESK_DONE, 0, 0, 0, 0));
    s = buttresk_inventory(NULL, 0, NULL, 0);
    EXPECT(stored(s, BUTTRESK_DONE, 0, 0, 0, 0));
    s = buttresk_write(0, 255, 255, NULL, 0, NULL, 0, NULL, 0);
    EXPECT(stored(s, BUTTRESK_NOT_ONE_MESSAGE, 0, 0, 0, 0));
    EXPECT(listed(buttresk_read_list(NULL, 0, NULL, 0), 0, BUTTRESK_DONE, 0));
    EXPECT(buttresk_indicator(NULL, 0).known == 0 && buttresk_identification(NULL, 0).known == 0 &&
           buttresk_grid_definition(NULL, 0).known == 0 &&
           buttresk_representation(NULL, 0).known == 0 && buttresk_bit_map(NULL, 0).known == 0);
    EXPECT(nothing(buttresk_product_definition(BUTTRESK_AS_CRATE, NULL, 0)));
    EXPECT(nothing(buttresk_product_definition(BUTTRESK_BY_MANUAL, NULL, 0)));
    EXPECT(nothing(buttresk_product_definition(0, NULL, 0)));
    struct buttresk_when_where_fields t = buttresk_when_and_where(BUTTRESK_BY_MANUAL, NULL, 0);
    EXPECT(no_time(t.time) && no_surfaces(t.surfaces));
}

/* Each lent memory alone is null, and the call has work to do with the others. */
static void nulls_beside_memory(void)
{
    static const char line[] = "0:0:0:0:0:0:0:0:0\n";
    uint64_t table[BUTTRESK_ENTRY], more[8 * BUTTRESK_ROW];
    uint8_t dest[86];
    struct file a = sample_a();

    struct buttresk_walk_answer w = buttresk_walk(a.octets, a.size, NULL, 0, lines, LINES);
    EXPECT(counted(w, 0, 0, 0) && ended(w, BUTTRESK_SECTION_TABLE_FULL, 0, 0, 0));
    w = buttresk_walk(a.octets, a.size, more, 24, NULL, 0);
    EXPECT(counted(w, 7, 0, 0) && ended(w, BUTTRESK_SUBMESSAGE_TABLE_FULL, 7, 82, 0));
    w = buttresk_walk(a.octets, a.size, NULL, 0, NULL, 0);
    EXPECT(counted(w, 0, 0, 0) && ended(w, BUTTRESK_SECTION_TABLE_FULL, 0, 0, 0));
    w = buttresk_walk(NULL, 0, more, 24, lines, LINES);
    EXPECT(counted(w, 0, 0, 0) && ended(w, BUTTRESK_DONE, 0, 0, 0));

    memset(dest, 77, sizeof dest);
    EXPECT(stored(buttresk_publish(a.octets, a.size, NULL, 0), BUTTRESK_NO_ROOM, 0, 0, 0, 0));
    EXPECT(stored(buttresk_publish(NULL, 0, dest, sizeof dest), BUTTRESK_DONE, 0, 0, 0, 0));
    EXPECT(
        stored(buttresk_inventory(a.octets, a.size, NULL, 0), BUTTRESK_TEXT_TOO_SMALL, 0, 0, 0, 0));
    EXPECT(stored(buttresk_inventory(a.octets, 84, NULL, 0), BUTTRESK_CUT, 7, 82, 2, 0));
    EXPECT(stored(buttresk_inventory(NULL, 0, dest, sizeof dest), BUTTRESK_DONE, 0, 0, 0, 0));
    EXPECT(dest[0] == 77 && dest[85] == 77);

    EXPECT(listed(buttresk_read_list((const uint8_t *)line, strlen(line), NULL, 0), 0,
                  BUTTRESK_SUBMESSAGE_TABLE_FULL, 0));
    EXPECT(listed(buttresk_read_list((const uint8_t *)line, 4, NULL, 0), 0,
                  BUTTRESK_LINE_NOT_IN_FORM, 1));
    EXPECT(listed(buttresk_read_list(NULL, 0, table, BUTTRESK_ENTRY), 0, BUTTRESK_DONE, 0));
}

/* The plan of sample A, with its sections' payloads in A itself. */
static void nulls_of_the_writer(void)
{
    static const uint64_t plan[6 * BUTTRESK_PART] = {1, 21, 16, 3, 42, 9, 4, 56, 4,
                                                     5, 65, 6,  6, 76, 1, 7, 82, 0};
    /* sections 1 to 6 have a least payload, so a plan whose payloads are all empty is refused */
    static const uint64_t empty[6 * BUTTRESK_PART] = {1, 0, 0, 3, 0, 0, 4, 0, 0,
                                                      5, 0, 0, 6, 0, 0, 7, 0, 0};
    uint8_t dest[86];
    struct file a = sample_a();
    memset(dest, 77, sizeof dest);
    EXPECT(stored(buttresk_write(10, 255, 255, NULL, 0, a.octets, a.size, dest, sizeof dest),
                  BUTTRESK_NOT_ONE_MESSAGE, 0, 0, 0, 0));
    EXPECT(stored(buttresk_write(10, 255, 255, plan, 18, NULL, 0, dest, sizeof dest),
                  BUTTRESK_OUTSIDE_STORE, 0, 0, 0, 0));
    EXPECT(stored(buttresk_write(10, 255, 255, empty, 18, NULL, 0, dest, sizeof dest),
                  BUTTRESK_PAYLOAD_SIZE, 0, 0, 0, 0));
    EXPECT(dest[0] == 77 && dest[85] == 77);
    EXPECT(stored(buttresk_write(10, 255, 255, plan, 18, a.octets, a.size, NULL, 0),
                  BUTTRESK_NO_ROOM, 0, 0, 0, 0));
    EXPECT(stored(buttresk_write(10, 255, 255, plan, 18, a.octets, a.size, dest, sizeof dest),
                  BUTTRESK_DONE, 0, 0, 0, 86) &&
           memcmp(dest, a.octets, 86) == 0);
}

static int is(const char *found, const char *expected)
{
    return found != NULL && strcmp(found, expected) == 0;
}

/* Some outcomes in words; that all are there; and that no other number has any. */
static void words(void)
{
    int there = 0;
    for (uint64_t outcome = 0; outcome < 22; outcome++) {
        there += buttresk_outcome_name(outcome) != NULL && buttresk_outcome_means(outcome) != NULL;
    }
    EXPECT(there == 22);
    EXPECT(is(buttresk_outcome_name(BUTTRESK_DONE), "done"));
    EXPECT(is(buttresk_outcome_name(BUTTRESK_CUT), "cut"));
    EXPECT(is(buttresk_outcome_detail(BUTTRESK_CUT), "the octets missing"));
    EXPECT(is(buttresk_outcome_means(BUTTRESK_OTHER_EDITION), "the edition is not 2"));
    EXPECT(is(buttresk_outcome_detail(BUTTRESK_OTHER_EDITION), "the edition"));
    EXPECT(is(buttresk_outcome_name(BUTTRESK_NO_GRID), "no grid"));
    EXPECT(
        is(buttresk_outcome_means(BUTTRESK_OUTSIDE_STORE), "a payload reaches beyond the store"));
    EXPECT(is(buttresk_outcome_name(BUTTRESK_NO_ROOM), "no room"));
    EXPECT(is(buttresk_outcome_name(BUTTRESK_LINE_NOT_IN_FORM), "line not in form"));
    EXPECT(buttresk_outcome_detail(BUTTRESK_DONE) == NULL &&
           buttresk_outcome_detail(BUTTRESK_FILE_TOO_LONG) == NULL &&
           buttresk_outcome_detail(BUTTRESK_TEXT_TOO_SMALL) == NULL);
    EXPECT(buttresk_outcome_name(22) == NULL && buttresk_outcome_means(22) == NULL &&
           buttresk_outcome_detail(22) == NULL);
    EXPECT(buttresk_outcome_name(UINT64_MAX) == NULL &&
           buttresk_outcome_name((uint64_t)1 << 32) == NULL);
}

static void version(void)
{
    char text[40];
    snprintf(text, sizeof text, "%d.%d.%d", BUTTRESK_VERSION_MAJOR, BUTTRESK_VERSION_MINOR,
             BUTTRESK_VERSION_PATCH);
    EXPECT(strcmp(text, BUTTRESK_VERSION) == 0);
}

int main(void)
{
    walks();
    walks_of_other_orders();
    walks_of_messages_that_go_on();
    walks_of_later_messages();
    walks_of_stated_totals();
    copies();
    cuts();
    writes();
    inventories();
    lists();
    fields();
    products_by_both_readings();
    nulls();
    nulls_beside_memory();
    nulls_of_the_writer();
    words();
    version();
    printf("cface: %d checks, %d failed\n", checks, failed);
    return failed != 0;
}
