#include "out.h"

#include <errno.h>
#include <stdio.h>

#include "say.h"
#include "text.h"

void print_file_line(const char *name)
{
    fputs("file ", stdout);
    put_name(stdout, name);
    putchar('\n');
}

/* What standard output does not take is told once, and then it is over. */
static bool over;

/* Who closes a pipe has read enough: that needs no words. */
static bool fails(int failure)
{
    over = true;
    errno = failure;
    if (failure == 0) {
        say_failed("standard output", "could not be written");
    } else if (failure != EPIPE) {
        say_system("standard output");
    }
    return false;
}

bool output_taken(void)
{
    if (over) {
        return false;
    }
    errno = 0;
    return (fflush(stdout) == 0 && !ferror(stdout)) || fails(errno);
}

bool print_all(const void *octets, size_t size)
{
    if (over) {
        return false;
    }
    errno = 0;
    return fwrite(octets, 1, size, stdout) == size || fails(errno);
}
