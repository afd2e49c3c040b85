#include "text.h"

static bool continues(unsigned char octet)
{
    return (octet & 0xc0) == 0x80;
}

/* How many octets the first has after it by its own word; 0 for none that starts a longer
   character. */
static int more_octets(unsigned char first)
{
    if (first >= 0xc2 && first <= 0xdf) {
        return 1;
    }
    if (first >= 0xe0 && first <= 0xef) {
        return 2;
    }
    return first >= 0xf0 && first <= 0xf4 ? 3 : 0;
}

/* Neither a longer spelling than needed, nor a surrogate, nor above 10ffff. */
static bool second_fits(unsigned char first, unsigned char second)
{
    return !(first == 0xe0 && second < 0xa0) && !(first == 0xed && second > 0x9f) &&
           !(first == 0xf0 && second < 0x90) && !(first == 0xf4 && second > 0x8f);
}

/* A 0 octet ends the text and continues nothing. */
int character(const unsigned char *at)
{
    int more = more_octets(at[0]);
    for (int i = 1; i <= more; i++) {
        if (!continues(at[i])) {
            return 0;
        }
    }
    return more != 0 && second_fits(at[0], at[1]) ? more + 1 : 0;
}

bool is_control(const unsigned char *at, int octets)
{
    if (octets == 2) {
        return at[0] == 0xc2 && at[1] < 0xa0;
    }
    return octets < 2 && (at[0] < 0x20 || at[0] == 0x7f);
}

static void put_single(FILE *to, unsigned char octet)
{
    if (octet == '\n') {
        fputs("\\n", to);
    } else if (octet == '\t') {
        fputs("\\t", to);
    } else if (octet == '\\') {
        fputs("\\\\", to);
    } else if (octet >= 0x80 || is_control(&octet, 1)) {
        fprintf(to, "\\x%02x", octet);
    } else {
        putc(octet, to);
    }
}

/* Answers how many octets it put. */
static int put_next(FILE *to, const unsigned char *at)
{
    int octets = character(at);
    if (octets == 0) {
        put_single(to, at[0]);
        return 1;
    }
    if (is_control(at, octets)) {
        fprintf(to, "\\x%02x\\x%02x", at[0], at[1]);
    } else {
        fwrite(at, 1, (size_t)octets, to);
    }
    return octets;
}

void put_name(FILE *to, const char *name)
{
    const unsigned char *at = (const unsigned char *)name;
    while (*at != 0) {
        at += put_next(to, at);
    }
}
