// What the tool says of failures: on standard error, or with --json as an object on standard
// output.
#ifndef REPORT_H
#define REPORT_H

#include "request.h"

// Exit statuses besides 0 and the refusal numbers.
enum {
    STATUS_USAGE = 64,       // the command line
    STATUS_DATA = 65,        // the block is not text
    STATUS_LIBRARY = 70,     // an answer that the library does not have
    STATUS_FILE = 74,        // a file
    STATUS_UNCONFIRMED = 77, // a question was not answered with yes
};

#define PRINTF(text, values) __attribute__((format(printf, text, values)))

// Reports a failure and gives its status.
int failure(const struct request *request, int status, const char *format, ...) PRINTF(3, 4);

// The same for a file, with the reason behind it: errno's, where that is 0 that the file is not
// regular.
int system_failure(const struct request *request, const char *format, ...) PRINTF(2, 3);

// Who can mend a refusal, and how.
struct remedy {
    const char *who;
    const char *advice;
};

// More of what a JSON object says of a refusal.
struct details {
    void (*put)(const void *what);
    const void *what;
};

int refusal_failure(const struct request *request, uint64_t answer, const char *meaning,
                    const struct remedy *remedy, const struct details *details);

// A word on standard error; the command goes on.
void notice(const struct request *request, const char *format, ...) PRINTF(2, 3);

// Sees that all output is out. Gives 0 or the status of the error it reported.
int finish_output(const struct request *request);

// The same after a change that stands, which the error then says.
int finish_after(const struct request *request, const char *format, ...) PRINTF(2, 3);

#endif
