// roundcard: the round store on an anchor file and a card image.
#include "commands.h"
#include "report.h"
#include "signals.h"

#include <fcntl.h>
#include <stdio.h>
#include <string.h>
#include <unistd.h>

#ifndef VERSION
#define VERSION "unknown"
#endif

static const struct command *const commands[] = {&format_command,  &read_command, &write_command,
                                                 &recover_command, &wipe_command, &check_command,
                                                 &show_command};

static const char help[] =
    "roundcard keeps rounds on a card image that anybody may alter, and sees if they did.\n"
    "\n"
    "  roundcard format --depth N [--key-file FILE] [--force] ANCHOR CARD\n"
    "  roundcard read   [--output FILE | --text | --hex] ANCHOR CARD BLOCK\n"
    "  roundcard write  [--input FILE | --text TEXT] ANCHOR CARD BLOCK\n"
    "  roundcard recover ANCHOR CARD\n"
    "  roundcard wipe   [--yes] ANCHOR CARD\n"
    "  roundcard check  [--all] [--picture FILE] ANCHOR CARD\n"
    "  roundcard show   ANCHOR [CARD]\n"
    "\n"
    "ANCHOR  a file of 40 bytes: the key, the depth, the root nonce T and the reserved\n"
    "        nonce H. It decides which card is the right one: keep it private, and never put\n"
    "        back an old copy.\n"
    "CARD    the card image, 104 * 2^depth - 48 bytes. It needs no protection. A write keeps\n"
    "        a journal beside it, CARD.roundcard-journal: where the card goes, it goes too.\n"
    "BLOCK   a block number, from 0 to 2^depth - 1. A block has 64 bytes.\n"
    "\n"
    "Every command takes --json, --wait SECONDS for a lock that another process has, and\n"
    "--help for more about it. '--' ends the options.\n"
    "\n"
    "Exit status: 0 when accepted, else the number of the refusal or a status from 64:\n"
    "\n"
    "   1  the depth is 0 or above 16              the calling software can mend it\n"
    "   2  T or H is no multiple of the depth, or\n"
    "      H is below T                            the anchor\n"
    "   3  the card has another length             whoever has the card\n"
    "   4  there is no such block                  the calling software\n"
    "   5  the anchor has not 40 bytes, or the\n"
    "      new block not 64                        the calling software\n"
    "   7  the nonces are used up                  the anchor: format with a new key\n"
    "   8  the tag of the node named is wrong      whoever has the card\n"
    "  10  the journal has another length, or the\n"
    "      ranges of no write                      whoever keeps the journal\n"
    "  64  the command line is wrong, or the text that is to be written\n"
    "  65  the block that was read is not text\n"
    "  70  the library gave an unknown answer, or contradicts itself\n"
    "  74  a file is missing or locked, or cannot be read or written\n"
    "  77  a wipe was not confirmed with yes\n"
    "\n"
    "A refused command, and one that ends with 64, 65, 70 or 77, changes no file; nor does\n"
    "one that ends with 74, unless it says so.\n";

static const struct command *find(const char *name) {
    for (size_t k = 0; k < sizeof commands / sizeof *commands; k++)
        if (strcmp(name, commands[k]->name) == 0)
            return commands[k];
    return NULL;
}

// Behind the help of each command.
static const char common_help[] =
    "\n"
    "Every command takes also:\n"
    "\n"
    "  --wait SECONDS  wait that long and no longer while another process has the anchor\n"
    "                  file locked, and for the bytes of a pipe; 0 does not wait. Without\n"
    "                  it, as long as the lock is held, and 5 seconds for a pipe.\n"
    "  -h, --help      print this\n";

static int print(const char *text, const char *more) {
    static const struct request none;
    fputs(text, stdout);
    fputs(more, stdout);
    return finish_output(&none);
}

static int run(const struct command *command, char **words) {
    struct request request;
    int status = parse_request(&request, command, words);
    if (status != 0)
        return status;
    return request.options[OPTION_HELP] != NULL ? print(command->help, common_help)
                                                : command->run(&request);
}

// The words behind help: none, or one command.
static int run_help(const struct request *none, char **words) {
    if (words[0] == NULL)
        return print(help, "");
    const struct command *command = find(words[0]);
    if (command == NULL)
        return failure(none, STATUS_USAGE, "there is no command %s", words[0]);
    return words[1] == NULL ? print(command->help, common_help)
                            : failure(none, STATUS_USAGE, "one word too many: %s", words[1]);
}

// A line without a command at its start.
static int run_general(char **words) {
    const struct request none = {.options[OPTION_JSON] = announces_json(words) ? "" : NULL};
    const char *first = words[0];
    if (first == NULL)
        return failure(&none, STATUS_USAGE, "a command is missing");
    if (strcmp(first, "--help") == 0 || strcmp(first, "-h") == 0 || strcmp(first, "help") == 0)
        return run_help(&none, words + 1);
    if (strcmp(first, "--version") == 0 && words[1] == NULL)
        return print("roundcard " VERSION "\n", "");
    if (strcmp(first, "--version") == 0)
        return failure(&none, STATUS_USAGE, "one word too many: %s", words[1]);
    if (*first == '-')
        return failure(&none, STATUS_USAGE, "the command comes first, and then %s", first);
    return failure(&none, STATUS_USAGE, "there is no command %s", first);
}

// Where standard input, output or error is closed, no file that is opened later may take its place:
// what is said would go into it. The place is filled so that its use still fails.
static bool fill_standard_places(void) {
    for (int place = STDIN_FILENO; place <= STDERR_FILENO; place++)
        if (fcntl(place, F_GETFD) < 0 &&
            open("/dev/null", place == STDIN_FILENO ? O_WRONLY : O_RDONLY) != place)
            return false;
    return true;
}

int main(int count, char **words) {
    if (!fill_standard_places())
        return STATUS_FILE;
    ignore_write_signals();
    const struct command *command = count < 2 ? NULL : find(words[1]);
    return command != NULL ? run(command, words + 2) : run_general(words + (count > 0));
}
