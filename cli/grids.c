#include "grids.h"

/* Octets 31 to 34 and 35 to 38 of the section, behind a header of 5. */
enum { ALONG = 25, DOWN = 29, END = 33 };

/* Code table 3.1: latitude and longitude (0 to 3: plain, rotated, stretched, both), Mercator, polar
   stereographic, Lambert, Gaussian (40 to 43). */
static bool has_extent(uint16_t template_number)
{
    return template_number <= 3 || template_number == 10 || template_number == 20 ||
           template_number == 30 || (template_number >= 40 && template_number <= 43);
}

static uint32_t number_at(const uint8_t *octets)
{
    return (uint32_t)octets[0] << 24 | (uint32_t)octets[1] << 16 | (uint32_t)octets[2] << 8 |
           (uint32_t)octets[3];
}

struct extent extent_of(uint16_t template_number, uint32_t points, const uint8_t *payload,
                        size_t octets)
{
    if (!has_extent(template_number) || octets < END) {
        return (struct extent){.known = false};
    }
    uint32_t along = number_at(payload + ALONG);
    uint32_t down = number_at(payload + DOWN);
    bool given = along != UINT32_MAX && down != UINT32_MAX; /* all ones is "missing" */
    return (struct extent){given && (uint64_t)along * down == points, along, down};
}
