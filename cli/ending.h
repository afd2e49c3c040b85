/* A file is walked and printed; what is told at its end, on standard error and in JSON. */
#ifndef ENDING_H
#define ENDING_H

#include "asked.h"
#include "say.h"
#include "source.h"
#include "tables.h"

/* Prints what was found, and answers whether it is the file's; says the reason if not. */
typedef bool print_walked(const struct source *source, const struct tables *tables,
                          const struct asked *asked);

/* Walks a file, prints it, and tells its end: the refusal if there is one; where the rest of a cut
   file starts; octets outside messages, or that there is no message. As JSON the end is an object
   as well, so that its reader needs no standard error. */
enum status walk_and_print(const char *name, const struct asked *asked, print_walked *print);

/* For what is decoded while it is printed: watched, and the file is looked at again at the end. */
bool print_watched(const struct source *source, const struct tables *tables,
                   const struct asked *asked, print_walked *print);

/* For a list, which is not walked: the members of its object, and the object of what could not be
   read, with the reason that was said. */
void json_outcome(struct end end);
enum status tell_failed(const char *name, const struct asked *asked);

#endif
