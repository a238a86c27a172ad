#include "signals.h"

#include <stddef.h>

void ignore_write_signals(void) {
    signal(SIGXFSZ, SIG_IGN);
    signal(SIGPIPE, SIG_IGN);
}

void hold_signals(sigset_t *before) {
    sigset_t all;
    sigfillset(&all);
    sigprocmask(SIG_BLOCK, &all, before);
}

void release_signals(const sigset_t *before) {
    sigprocmask(SIG_SETMASK, before, NULL);
}

// Whether nothing happens when it comes.
static bool is_harmless(int number) {
    struct sigaction action;
    if (number == SIGCHLD || number == SIGCONT || number == SIGURG || number == SIGWINCH)
        return true;
    return sigaction(number, NULL, &action) != 0 || action.sa_handler == SIG_IGN;
}

bool signal_waits(void) {
    sigset_t waiting;
    if (sigpending(&waiting) != 0)
        return false;
    for (int number = 1; number <= SIGRTMAX; number++)
        if (sigismember(&waiting, number) == 1 && !is_harmless(number))
            return true;
    return false;
}
