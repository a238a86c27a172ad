#include "request.h"
#include "report.h"

#include <string.h>

bool parse_number(const char *digits, uint64_t *number) {
    uint64_t value = 0;
    if (*digits == '\0')
        return false;
    for (; *digits != '\0'; digits++) {
        if (*digits < '0' || *digits > '9')
            return false;
        uint64_t digit = (uint64_t)(*digits - '0');
        if (value > (UINT64_MAX - digit) / 10)
            return false;
        value = 10 * value + digit;
    }
    *number = value;
    return true;
}

// The words of a command, in their order.
static const char *const word_names[MOST_WORDS] = {"ANCHOR", "CARD", "BLOCK"};

static const struct option_form wait_form = {"--wait", OPTION_WAIT, true};

// Whether a word names the option, perhaps with its value behind '='.
static bool names(const char *word, const struct option_form *form) {
    size_t length = strlen(form->name);
    return strncmp(word, form->name, length) == 0 && (word[length] == '\0' || word[length] == '=');
}

// The option with a value, or of the command alone, that a word names.
static const struct option_form *find(const struct command *command, const char *word) {
    for (size_t k = 0; k < MOST_OPTIONS && command->options[k].name != NULL; k++)
        if (names(word, &command->options[k]))
            return &command->options[k];
    return names(word, &wait_form) ? &wait_form : NULL;
}

// Takes an option and, where it has one, its value; moves on to the last word taken.
static int take_option(struct request *request, char ***words) {
    const char *word = **words;
    const struct option_form *form = find(request->command, word);
    if (form == NULL)
        return failure(request, STATUS_USAGE, "unknown option %s", word);
    if (request->options[form->option] != NULL)
        return failure(request, STATUS_USAGE, "%s is given twice", form->name);
    const char *value = strchr(word, '=');
    if (!form->takes_value && value != NULL)
        return failure(request, STATUS_USAGE, "%s takes no value", form->name);
    if (!form->takes_value)
        value = "";
    else if (value != NULL)
        value++;
    else if ((value = *++*words) == NULL)
        return failure(request, STATUS_USAGE, "%s needs a value", form->name);
    request->options[form->option] = value;
    return 0;
}

static int take_word(struct request *request, const char *word) {
    if (request->word_count == request->command->most_words)
        return failure(request, STATUS_USAGE, "one word too many: %s", word);
    request->words[request->word_count++] = word;
    return 0;
}

// Every command has these; they may be repeated.
static bool take_common(struct request *request, const char *word) {
    if (strcmp(word, "--json") == 0)
        request->options[OPTION_JSON] = "";
    else if (strcmp(word, "--help") == 0 || strcmp(word, "-h") == 0)
        request->options[OPTION_HELP] = "";
    else
        return false;
    return true;
}

bool announces_json(char **words) {
    for (; *words != NULL && strcmp(*words, "--") != 0; words++)
        if (strcmp(*words, "--json") == 0)
            return true;
    return false;
}

static int take_wait(struct request *request) {
    const char *seconds = request->options[OPTION_WAIT];
    request->wait = WAIT_FOR_EVER;
    if (seconds == NULL || parse_number(seconds, &request->wait))
        return 0;
    return failure(request, STATUS_USAGE, "--wait %s is not a number of seconds", seconds);
}

int parse_request(struct request *request, const struct command *command, char **words) {
    *request = (struct request){.command = command};
    if (announces_json(words))
        request->options[OPTION_JSON] = "?";
    bool options = true;
    for (; *words != NULL; words++) {
        int status = 0;
        if (options && strcmp(*words, "--") == 0)
            options = false;
        else if (options && take_common(request, *words))
            continue;
        else if (options && **words == '-')
            status = take_option(request, &words);
        else
            status = take_word(request, *words);
        if (status != 0)
            return status;
    }
    if (request->options[OPTION_HELP] == NULL && request->word_count < command->fewest_words)
        return failure(request, STATUS_USAGE, "%s is missing", word_names[request->word_count]);
    int status = take_wait(request);
    if (request->options[OPTION_JSON] != NULL && *request->options[OPTION_JSON] == '?')
        request->options[OPTION_JSON] = NULL;
    return status;
}
