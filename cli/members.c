#include "members.h"

enum { NONE = -1, HEADER = 5, MISSING = 255 };

/* Octets count from 1, in the section with its header. */
struct place {
    int template_number;
    int perturbation;
    int forecasts;
    int counted; /* how often a part before them repeats; NONE if there is none */
    int each;    /* octets of it each time */
};

static const struct place places[] = {
#include "members.rows"
};

enum { TEMPLATES = sizeof places / sizeof places[0] };

static const struct place *place_of(uint16_t template_number)
{
    int i = 0;
    while (i < TEMPLATES && places[i].template_number != template_number) {
        i++;
    }
    return i < TEMPLATES ? &places[i] : NULL;
}

/* MISSING beyond the end: neither is a value. */
static uint8_t octet_at(const uint8_t *payload, size_t octets, int number)
{
    size_t index = (size_t)(number - HEADER - 1);
    return index < octets ? payload[index] : MISSING;
}

static int moved_on(const struct place *p, const uint8_t *payload, size_t octets)
{
    return p->counted == NONE ? 0 : octet_at(payload, octets, p->counted) * p->each;
}

struct member member_of(uint16_t template_number, const uint8_t *payload, size_t octets)
{
    const struct place *p = place_of(template_number);
    if (p == NULL) {
        return (struct member){.known = false};
    }
    int by = moved_on(p, payload, octets);
    uint8_t perturbation = octet_at(payload, octets, p->perturbation + by);
    uint8_t of = octet_at(payload, octets, p->forecasts + by);
    return (struct member){perturbation != MISSING, perturbation, of != MISSING, of};
}
