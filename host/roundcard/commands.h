// The commands, each with its options, its help and what it does.
#ifndef COMMANDS_H
#define COMMANDS_H

#include "request.h"

extern const struct command format_command;
extern const struct command read_command;
extern const struct command write_command;
extern const struct command recover_command;
extern const struct command wipe_command;
extern const struct command check_command;
extern const struct command show_command;

#endif
