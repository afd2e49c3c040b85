#include "json.h"

#include <inttypes.h>
#include <stdio.h>

#include "text.h"

static void put_ascii(unsigned char octet)
{
    if (octet == '"' || octet == '\\') {
        printf("\\%c", octet);
    } else if (is_control(&octet, 1)) {
        printf("\\u%04x", octet);
    } else {
        putchar(octet);
    }
}

/* Answers how many octets it put. */
static int put_next(const unsigned char *at)
{
    int octets = character(at);
    if (octets == 0) {
        if (at[0] < 0x80) {
            put_ascii(at[0]);
        } else {
            printf("\\udc%02x", at[0]);
        }
        return 1;
    }
    if (is_control(at, octets)) {
        printf("\\u00%02x", at[1]);
    } else {
        fwrite(at, 1, (size_t)octets, stdout);
    }
    return octets;
}

static void put_string(const char *text)
{
    const unsigned char *at = (const unsigned char *)text;
    putchar('"');
    while (*at != 0) {
        at += put_next(at);
    }
    putchar('"');
}

void json_begin(const char *kind, const char *file)
{
    printf("{\"kind\":\"%s\"", kind);
    json_string("file", file);
}

void json_key(const char *key)
{
    printf(",\"%s\":", key);
}

void json_number(const char *key, uint64_t value)
{
    json_key(key);
    printf("%" PRIu64, value);
}

void json_bool(const char *key, bool value)
{
    json_key(key);
    fputs(value ? "true" : "false", stdout);
}

void json_null(const char *key)
{
    json_key(key);
    fputs("null", stdout);
}

void json_string(const char *key, const char *text)
{
    json_key(key);
    put_string(text);
}

void json_reading(enum buttresk_reading reading)
{
    json_string("reading", reading == BUTTRESK_BY_MANUAL ? "by-manual" : "as-crate");
}

void json_end(void)
{
    puts("}");
}
