/* A submessage's decoded fields as columns: a line of a table, or an object of JSON. */
#ifndef COLUMNS_H
#define COLUMNS_H

#include "decoding.h"

/* `file`: the name that the first column has, null where the table has no such column. */
void print_columns_head(bool with_file);
void print_columns(const struct submessage *s, const char *file);

void print_columns_as_json(const struct submessage *s, const char *file);

#endif
