/* What the command does with its files. Each says its own reasons, and answers the status that it
   comes to. */
#ifndef COMMANDS_H
#define COMMANDS_H

#include "asked.h"
#include "say.h"

enum status index_file(const char *name, const struct asked *asked);
enum status fields_of_file(const char *name, const struct asked *asked);
enum status list_of_file(const char *name, const struct asked *asked);
enum status inventory_of_file(const char *name, const struct asked *asked);
enum status read_list(const char *name, const struct asked *asked);
enum status copy_file(const char *name, const char *dest, bool force);
enum status verify_file(const char *public_name, const char *original);
enum status leaks_of_file(const char *name);

/* The heading of a table, which stands once, before the first file. */
void fields_head(const struct asked *asked);
void read_list_head(const struct asked *asked);

#endif
