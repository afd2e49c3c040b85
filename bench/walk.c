/* Buttresk's walk, public copy, inventory and reader of a list, by include/buttresk.h. */
#include "buttresk.h"
#include "drive.h"

struct walked walk_file(const uint8_t *file, size_t octets, struct tables t)
{
    struct buttresk_walk_answer a =
        buttresk_walk(file, octets, t.rows, t.row_numbers, t.lines, t.line_numbers);
    return (struct walked){.sections = a.sections,
                           .submessages = a.submessages,
                           .messages = a.messages,
                           .outcome = a.outcome};
}

uint64_t copy_file(const uint8_t *file, size_t octets, uint8_t *dest, struct tables t)
{
    (void)t;
    return buttresk_publish(file, octets, dest, octets).outcome;
}

uint64_t list_file(const uint8_t *file, size_t octets, uint8_t *text, struct tables t)
{
    (void)t;
    return buttresk_inventory(file, octets, text, octets).outcome;
}

uint64_t read_text(const uint8_t *text, size_t octets, struct tables t)
{
    return buttresk_read_list(text, octets, t.lines, t.line_numbers).outcome;
}
