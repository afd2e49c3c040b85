/* What the library decodes of the sections in force at a submessage. */
#ifndef DECODING_H
#define DECODING_H

#include <stdbool.h>
#include <stddef.h>
#include <stdint.h>

#include "buttresk.h"
#include "source.h"
#include "tables.h"

/* A section's octets, without its header. */
struct part {
    const uint8_t *octets;
    size_t size;
};

struct submessage {
    uint64_t message;
    uint64_t submessage;
    uint64_t offset; /* of the message */
    uint64_t length; /* of the message, as it states */
    struct buttresk_indicator_fields indicator;
    struct buttresk_identification_fields identification;
    struct buttresk_grid_fields grid;
    enum buttresk_reading reading; /* of the product */
    struct buttresk_product_fields product;
    struct buttresk_representation_fields representation;
    struct buttresk_bit_map_fields bit_map;
};

/* For what the library does not decode: sections 3 and 4, neither of which carries a value. They
   may be read during this call alone, in which no fault of the file does harm. */
typedef void with_payloads(const struct submessage *s, struct part three, struct part four,
                           void *with);

/* Of a line of the submessage table, its product by this reading. Whether its sections could be
   read: if not, the file changed under it, or its disk fails. */
bool decode_submessage(struct submessage *s, const struct source *source,
                       const struct tables *tables, const uint64_t *line,
                       enum buttresk_reading reading);

/* The same, and `also` is called with what it decoded. */
bool decode_also(struct submessage *s, const struct source *source, const struct tables *tables,
                 const uint64_t *line, enum buttresk_reading reading, with_payloads *also,
                 void *with);

/* How many octets the forecast time has, by which its top bit and "all ones" are told. */
int time_octets(const struct submessage *s);

#endif
