#include "question.h"

#include <ctype.h>
#include <stdio.h>
#include <stdlib.h>
#include <strings.h>
#include <termios.h>
#include <unistd.h>

bool can_ask(void) {
    return isatty(STDIN_FILENO) == 1 && isatty(STDERR_FILENO) == 1;
}

// Whether a line is the word, in any case, with blanks around it or without.
static bool is_yes(const char *line, size_t length) {
    while (length > 0 && isspace((unsigned char)line[length - 1]))
        length--;
    for (; length > 0 && isspace((unsigned char)*line); length--)
        line++;
    return length == 3 && strncasecmp(line, "yes", 3) == 0;
}

bool answered_yes(const char *question) {
    char *line = NULL;
    size_t size = 0;
    tcflush(STDIN_FILENO, TCIFLUSH); // what was typed before is no answer
    fputs(question, stderr);
    ssize_t length = getline(&line, &size, stdin);
    bool whole = length > 0 && line[length - 1] == '\n';
    if (!whole)
        fputc('\n', stderr); // what is said next starts a line
    bool yes = whole && is_yes(line, (size_t)length);
    free(line);
    return yes;
}
