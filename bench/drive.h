/* What is measured, behind one face: drive.c is linked with walk.c (Buttresk) or with plain.c
 * (plain C). */
#ifndef DRIVE_H
#define DRIVE_H

#include <stddef.h>
#include <stdint.h>

enum { ROW = 3, LINE = 15, ENTRY = 13 };

/* Numbers of a line, as include/buttresk.h has them. There are nine places. */
enum { MESSAGE, SUBMESSAGE, HAS_LOCAL, CLOSED, PLACES, OFFSET = PLACES + 9, TOTAL };

/* Memory that is lent to a walk. */
struct tables {
    uint64_t *rows;
    size_t row_numbers;
    uint64_t *lines;
    size_t line_numbers;
};

struct walked {
    uint64_t sections;
    uint64_t submessages;
    uint64_t messages;
    uint64_t outcome;
};

struct walked walk_file(const uint8_t *file, size_t octets, struct tables tables);

/* The public copy, into as many octets as the file has; its outcome. */
uint64_t copy_file(const uint8_t *file, size_t octets, uint8_t *dest, struct tables tables);

/* The inventory, into as many octets as the file has; its outcome. */
uint64_t list_file(const uint8_t *file, size_t octets, uint8_t *text, struct tables tables);

/* The entries of a list, in the table of lines; its outcome. */
uint64_t read_text(const uint8_t *text, size_t octets, struct tables tables);

#endif
