/* Text that nobody chose: names of files, which may hold any octets but 0 and,
   in a path, slashes. */
#ifndef TEXT_H
#define TEXT_H

#include <stdbool.h>
#include <stdio.h>

/* Octets of the character of UTF-8 that starts here; 0 if none of more than one octet does. */
int character(const unsigned char *at);

/* Whether a character of so many octets would act on a terminal, and not show: also U+0080 to
   U+009F, which some take for controls as they take those below U+0020. */
bool is_control(const unsigned char *at, int octets);

/* A name on one line, whatever it holds: a backslash, controls, and octets that are no part of
   UTF-8 are escaped. */
void put_name(FILE *to, const char *name);

#endif
