#include "report.h"
#include "json.h"
#include "pat.h"
#include "text.h"

#include <errno.h>
#include <stdarg.h>
#include <stdio.h>
#include <string.h>

enum { LONGEST_MESSAGE = 16384, LONGEST_REASON = 256 };

static const char *name_of(const struct request *request) {
    return request->command == NULL ? "" : request->command->name;
}

// One line on standard error, whatever is in the names of files.
static void say(const struct request *request, const char *message) {
    const char *name = name_of(request);
    char shown[4 * LONGEST_MESSAGE];
    escape(shown, sizeof shown, message);
    fprintf(stderr, "roundcard%s%s: %s\n", *name == '\0' ? "" : " ", name, shown);
}

static void open_object(const struct request *request, int status) {
    json_open(request->command == NULL ? NULL : request->command->name, status);
}

static int tell(const struct request *request, int status, const char *message) {
    const char *name = name_of(request);
    if (request->options[OPTION_JSON] != NULL) {
        char shown[4 * LONGEST_MESSAGE];
        escape(shown, sizeof shown, message);
        open_object(request, status);
        json_string("message", shown);
        json_close();
        if (finish_output(request) == 0)
            return status;
        say(request, message);
        return STATUS_FILE;
    }
    say(request, message);
    if (status == STATUS_USAGE)
        fprintf(stderr, "'roundcard %s%s--help' says what it takes\n", name,
                *name == '\0' ? "" : " ");
    return status;
}

int failure(const struct request *request, int status, const char *format, ...) {
    char message[LONGEST_MESSAGE];
    va_list values;
    va_start(values, format);
    vsnprintf(message, sizeof message, format, values);
    va_end(values);
    return tell(request, status, message);
}

int system_failure(const struct request *request, const char *format, ...) {
    const char *reason = errno == 0 ? "not a regular file" : strerror(errno);
    char message[LONGEST_MESSAGE - LONGEST_REASON];
    va_list values;
    va_start(values, format);
    vsnprintf(message, sizeof message, format, values);
    va_end(values);
    return failure(request, STATUS_FILE, "%s: %s", message, reason);
}

void notice(const struct request *request, const char *format, ...) {
    char message[LONGEST_MESSAGE];
    va_list values;
    va_start(values, format);
    vsnprintf(message, sizeof message, format, values);
    va_end(values);
    say(request, message);
}

static void say_refusal(const struct request *request, int number, const char *meaning,
                        const struct remedy *remedy) {
    fprintf(stderr, "roundcard %s: refused, %d: %s\n", name_of(request), number, meaning);
    fprintf(stderr, "%s can mend it: %s\n", remedy->who, remedy->advice);
}

int refusal_failure(const struct request *request, uint64_t answer, const char *meaning,
                    const struct remedy *remedy, const struct details *details) {
    int number = (int)pat_refusal(answer);
    if (request->options[OPTION_JSON] == NULL) {
        say_refusal(request, number, meaning, remedy);
        return number;
    }
    open_object(request, number);
    json_number("refusal", (uint64_t)number);
    if (pat_node(answer) != 0)
        json_number("node", pat_node(answer));
    json_string("message", meaning);
    json_string("who", remedy->who);
    json_string("advice", remedy->advice);
    if (details->put != NULL)
        details->put(details->what);
    json_close();
    if (finish_output(request) == 0)
        return number;
    say_refusal(request, number, meaning, remedy);
    return STATUS_FILE;
}

int finish_output(const struct request *request) {
    return finish_after(request, "%s", "");
}

int finish_after(const struct request *request, const char *format, ...) {
    errno = 0;
    bool flushed = fflush(stdout) == 0;
    if (flushed && !ferror(stdout))
        return 0;
    const char *reason = flushed || errno == 0 ? NULL : strerror(errno);
    char done[LONGEST_MESSAGE - LONGEST_REASON], message[LONGEST_MESSAGE];
    va_list values;
    va_start(values, format);
    vsnprintf(done, sizeof done, format, values);
    va_end(values);
    snprintf(message, sizeof message, "%s%scannot write to standard output%s%s", done,
             *done == '\0' ? "" : "; ", reason == NULL ? "" : ": ", reason == NULL ? "" : reason);
    say(request, message);
    return STATUS_FILE;
}
