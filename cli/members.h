/* The member of an ensemble, by tables/members.tsv: the library does not decode it. */
#ifndef MEMBERS_H
#define MEMBERS_H

#include <stdbool.h>
#include <stddef.h>
#include <stdint.h>

struct member {
    bool known;
    uint8_t perturbation;
    bool of_known;
    uint8_t of; /* forecasts in the ensemble */
};

/* Of section 4's payload. None where the template has no member, the payload ends before it, or it
   is 255, "missing". */
struct member member_of(uint16_t template_number, const uint8_t *payload, size_t octets);

#endif
