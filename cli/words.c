#include "words.h"

#include <stdarg.h>
#include <stdio.h>
#include <string.h>

void add(struct words *words, const char *format, ...)
{
    size_t there = strlen(words->text);
    va_list values;
    va_start(values, format);
    vsnprintf(words->text + there, WORDS_ROOM - there, format, values);
    va_end(values);
}

int length_of(const struct words *words)
{
    return (int)strlen(words->text);
}
