/*
 * Calls that read or write mapped files. Where a file was shortened, or its disk fails, an access
 * to its pages raises SIGBUS; where it was rewritten, an access to the room that is reserved behind
 * a copy raises SIGSEGV. A guarded call is then left where it stands. The library allows that: it
 * allocates nothing, holds no lock and keeps no state.
 */
#ifndef GUARD_H
#define GUARD_H

#include <stdbool.h>

/* Before the first guarded call. */
bool guard_install(void);

/* Whether the call came to its end; if not, `fault` is the address that it could not reach. For one
 * thread, and calls don't nest. */
bool guarded(void (*call)(void *), void *with, const void **fault);

#endif
