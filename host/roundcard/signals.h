// Signals: what would end the tool between two steps that belong together.
#ifndef SIGNALS_H
#define SIGNALS_H

#include <signal.h>
#include <stdbool.h>

// Lets a file-size limit and a pipe that nobody reads be errors of write, as a full disk is.
void ignore_write_signals(void);

// Holds back every signal that can be held back, until they are let through again.
void hold_signals(sigset_t *before);
void release_signals(const sigset_t *before);

// Whether one is held back that ends or stops the tool once it is let through.
bool signal_waits(void);

#endif
