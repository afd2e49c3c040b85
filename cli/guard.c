#include "guard.h"

#include <setjmp.h>
#include <signal.h>
#include <stddef.h>

/* What the handler needs: where a guarded call is left to, whether there is one, and the address
 * that it failed at. */
static sigjmp_buf landing;
static volatile sig_atomic_t armed;
static const void *volatile failed_at;

static void on_fault(int number, siginfo_t *info, void *context)
{
    (void)context;
    if (!armed) {
        /* No call of ours: the access is made again, and ends the command as it would have without
         * a handler. */
        signal(number, SIG_DFL);
        return;
    }
    armed = 0;
    failed_at = info->si_addr;
    siglongjmp(landing, 1);
}

bool guard_install(void)
{
    /* Not deferred: the handler is left by a jump, which then has no signal mask to restore. */
    struct sigaction action = {.sa_sigaction = on_fault, .sa_flags = SA_SIGINFO | SA_NODEFER};
    sigemptyset(&action.sa_mask);
    return sigaction(SIGBUS, &action, NULL) == 0 && sigaction(SIGSEGV, &action, NULL) == 0;
}

bool guarded(void (*call)(void *), void *with, const void **fault)
{
    if (sigsetjmp(landing, 0) != 0) {
        *fault = failed_at;
        return false;
    }
    armed = 1;
    call(with);
    armed = 0;
    return true;
}
