/* Work on many files, several at once. */
#ifndef JOBS_H
#define JOBS_H

#include "say.h"

struct work {
    char **names;
    int count;
    int jobs; /* at once; 1: no process but this one */
    enum status (*on)(int which, const void *with);
    enum status (*lost)(int which, const void *with); /* of a file whose words could not be kept */
    const void *with;
};

/* One file after another, whatever becomes of each, until nobody takes the output. Several at once
   are processes of their own, and what they print and tell comes in the order of the files. Answers
   the highest status. */
enum status work_through(const struct work *work);

#endif
