#include "products.h"

#include <stddef.h>

static const struct product products[] = {
#include "products.rows"
};

enum { PRODUCTS = sizeof products / sizeof products[0] };

const struct product *product_of(uint16_t template_number)
{
    int i = 0;
    while (i < PRODUCTS && products[i].template_number != template_number) {
        i++;
    }
    return i < PRODUCTS ? &products[i] : NULL;
}
