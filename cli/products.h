/* What a product template says of its field, by WMO Code table 4.0: tables/products.tsv. */
#ifndef PRODUCTS_H
#define PRODUCTS_H

#include <stdint.h>

struct product {
    uint16_t template_number;
    const char *time; /* what reference time plus forecast time is: "point", or "start" of an
                         interval */
    const char *kind; /* what the numbers are, "-" where they are the parameter itself */
};

/* Null for a template of which there is nothing to say. */
const struct product *product_of(uint16_t template_number);

#endif
