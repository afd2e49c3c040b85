#include "decoding.h"

#include "guard.h"

enum { HEADER = 5 }; /* octets of a section's header; sections 0 and 8 have none */

struct decoding {
    const struct source *source;
    const struct tables *tables;
    const uint64_t *line;
    enum buttresk_reading reading;
    bool inside; /* every section read lies inside the file */
    struct submessage *submessage;
    with_payloads *also;
    void *with;
};

/*
 * A section of the line, without its header. A row of a file that nobody changes during its walk
 * lies inside the file; of one that was changed nothing is promised, so it is not trusted with an
 * address.
 */
static struct part part_of(struct decoding *d, int number, uint64_t header)
{
    uint64_t place = d->line[PLACES + number];
    if (place < d->tables->answer.sections) {
        struct row row = tables_row(d->tables, place);
        if (row.length >= header && row.offset <= d->source->size &&
            row.length <= d->source->size - row.offset) {
            return (struct part){d->source->octets + row.offset + header, row.length - header};
        }
    }
    d->inside = false;
    return (struct part){d->source->octets, 0};
}

static void decode(void *with)
{
    struct decoding *d = with;
    struct submessage *s = d->submessage;
    struct part zero = part_of(d, 0, 0), one = part_of(d, 1, HEADER), three = part_of(d, 3, HEADER);
    struct part four = part_of(d, 4, HEADER), five = part_of(d, 5, HEADER);
    struct part six = part_of(d, 6, HEADER);
    s->message = d->line[MESSAGE];
    s->submessage = d->line[SUBMESSAGE];
    s->offset = d->line[OFFSET];
    s->length = d->line[TOTAL];
    s->indicator = buttresk_indicator(zero.octets, zero.size);
    s->identification = buttresk_identification(one.octets, one.size);
    s->grid = buttresk_grid_definition(three.octets, three.size);
    s->reading = d->reading;
    s->product = buttresk_product_definition(d->reading, four.octets, four.size);
    s->representation = buttresk_representation(five.octets, five.size);
    s->bit_map = buttresk_bit_map(six.octets, six.size);
    d->also(s, three, four, d->with);
}

bool decode_also(struct submessage *s, const struct source *source, const struct tables *tables,
                 const uint64_t *line, enum buttresk_reading reading, with_payloads *also,
                 void *with)
{
    struct decoding d = {source, tables, line, reading, true, s, also, with};
    const void *fault;
    return guarded(decode, &d, &fault) && d.inside;
}

static void nothing_more(const struct submessage *s, struct part three, struct part four,
                         void *with)
{
    (void)s, (void)three, (void)four, (void)with;
}

bool decode_submessage(struct submessage *s, const struct source *source,
                       const struct tables *tables, const uint64_t *line,
                       enum buttresk_reading reading)
{
    return decode_also(s, source, tables, line, reading, nothing_more, NULL);
}

/* Code table 4.0: an aerosol at a point in time. By the Manual its time is octets 32 and 33. */
enum { AEROSOL = 44 };

int time_octets(const struct submessage *s)
{
    return s->reading == BUTTRESK_BY_MANUAL && s->product.template_number == AEROSOL ? 2 : 4;
}
