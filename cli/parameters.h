/* What is measured, by WMO Code table 4.2: tables/parameters.tsv. */
#ifndef PARAMETERS_H
#define PARAMETERS_H

#include <stdint.h>

struct parameter {
    uint8_t discipline;
    uint8_t category;
    uint8_t number;
    const char *name;
    const char *unit; /* "-" for none */
};

/* Null where the table has no name. */
const struct parameter *parameter_of(uint8_t discipline, uint8_t category, uint8_t number);

#endif
