#include "parameters.h"

#include <stdlib.h>

/* In ascending order, as tests/checks/tables.py holds the table to. */
static const struct parameter parameters[] = {
#include "parameters.rows"
};

static int place_of(const struct parameter *p)
{
    return (p->discipline << 16) + (p->category << 8) + p->number;
}

static int compare(const void *one, const void *other)
{
    return place_of(one) - place_of(other);
}

const struct parameter *parameter_of(uint8_t discipline, uint8_t category, uint8_t number)
{
    const struct parameter wanted = {discipline, category, number, NULL, NULL};
    return bsearch(&wanted, parameters, sizeof parameters / sizeof parameters[0],
                   sizeof parameters[0], compare);
}
