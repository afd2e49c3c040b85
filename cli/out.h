/* Standard output: whether it took what was printed. */
#ifndef OUT_H
#define OUT_H

#include <stdbool.h>
#include <stddef.h>

/* The line that says whose output follows. */
void print_file_line(const char *name);

/* Whether standard output took all that was printed; says the reason if not, once. */
bool output_taken(void);

/* Octets that may be many: such a write is made at once, and its reason is not kept for later. */
bool print_all(const void *octets, size_t size);

#endif
