/* Objects of JSON on standard output, one a line. Each begins with its kind and its file. */
#ifndef JSON_H
#define JSON_H

#include <stdbool.h>
#include <stdint.h>

#include "buttresk.h"

void json_begin(const char *kind, const char *file);
void json_key(const char *key);
void json_number(const char *key, uint64_t value);
void json_bool(const char *key, bool value);
void json_null(const char *key);

/* Of any text. An octet that is not part of a UTF-8 character becomes the escape of a lone
   surrogate, \udc80 to \udcff: so the string is always valid, two names never become one, and
   Python's os.fsencode has the octets back. */
void json_string(const char *key, const char *text);

/* Which reading of product templates the object is of. */
void json_reading(enum buttresk_reading reading);

void json_end(void);

#endif
