// A command line taken apart.
#ifndef REQUEST_H
#define REQUEST_H

#include <stdbool.h>
#include <stddef.h>
#include <stdint.h>

enum option {
    OPTION_DEPTH,
    OPTION_KEY_FILE,
    OPTION_FORCE,
    OPTION_INPUT,
    OPTION_OUTPUT,
    OPTION_TEXT,
    OPTION_HEX,
    OPTION_ALL,
    OPTION_PICTURE,
    OPTION_YES,
    OPTION_WAIT,
    OPTION_JSON,
    OPTION_HELP,
    OPTION_COUNT
};

struct option_form {
    const char *name;
    enum option option;
    bool takes_value;
};

enum { MOST_WORDS = 3, MOST_OPTIONS = 6 };

struct request;

struct command {
    const char *name;
    const char *help;
    struct option_form options[MOST_OPTIONS]; // up to the first without a name
    size_t fewest_words, most_words;
    int (*run)(const struct request *request);
};

struct request {
    const struct command *command;
    const char *words[MOST_WORDS]; // the anchor file, the card image, the block number
    size_t word_count;
    const char *options[OPTION_COUNT]; // its value, "" for one that has none, NULL where not given
    uint64_t wait;                     // the seconds of --wait
};

#define WAIT_FOR_EVER UINT64_MAX

// Whether --json is among the words, as an option or another's value: errors in them are then told
// in JSON.
bool announces_json(char **words);

// Takes the words after the command's name apart. Gives 0, or the status of the error it reported.
int parse_request(struct request *request, const struct command *command, char **words);

// A decimal number: digits alone, below 2^64.
bool parse_number(const char *digits, uint64_t *number);

#endif
