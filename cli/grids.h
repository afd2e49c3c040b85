/* The rows and columns of a grid: the library decodes its points alone. */
#ifndef GRIDS_H
#define GRIDS_H

#include <stdbool.h>
#include <stddef.h>
#include <stdint.h>

struct extent {
    bool known;
    uint32_t along; /* a parallel, Ni or Nx of the Manual */
    uint32_t down;  /* a meridian, Nj or Ny */
};

/* Of section 3's payload. Known where the template has both and they make as many points as the
   grid says to have: of a grid whose rows differ in length one is "missing". */
struct extent extent_of(uint16_t template_number, uint32_t points, const uint8_t *payload,
                        size_t octets);

#endif
