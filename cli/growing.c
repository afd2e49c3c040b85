#include "growing.h"

#include "guard.h"
#include "say.h"
#include "watch.h"

enum ending { FITS, NO_MEMORY, FAULT };

static enum ending call_until_it_fits(const struct growing *growing, void *with)
{
    const void *fault;
    size_t times = 1;
    while (growing->lend(with, times)) {
        if (!guarded(growing->call, with, &fault)) {
            return FAULT;
        }
        if (growing->fits(with)) {
            return FITS;
        }
        times *= 2;
    }
    return NO_MEMORY;
}

bool answered(const struct growing *growing, void *with, const struct source *source)
{
    struct watch watch;
    watch_start(&watch, source, growing->doing, false);
    enum ending ending = call_until_it_fits(growing, with);
    watch_stop(&watch);
    if (ending == FAULT) {
        source_say_fault(source);
    } else if (ending == NO_MEMORY) {
        say_failed(source->name, growing->no_memory);
    }
    return ending == FITS && source_same(source);
}
