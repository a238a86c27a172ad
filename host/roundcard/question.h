// A question to whoever sits at the terminal.
#ifndef QUESTION_H
#define QUESTION_H

#include <stdbool.h>

// Whether somebody sees a question and can answer it: standard input and standard error are
// terminals.
bool can_ask(void);

// Asks on standard error. Whether the line that is then typed is yes and nothing else.
bool answered_yes(const char *question);

#endif
