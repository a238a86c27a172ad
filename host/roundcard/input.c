#include "input.h"
#include "files.h"
#include "report.h"

#include <errno.h>
#include <fcntl.h>
#include <inttypes.h>
#include <string.h>
#include <unistd.h>

// What a pipe has to bring its next bytes, where --wait does not say it.
enum { PIPE_SECONDS = 5 };

int input_take(const struct request *request, const char *what, const char *path,
               struct input *input) {
    bool standard = path == NULL || strcmp(path, "-") == 0;
    uint64_t seconds = request->wait == WAIT_FOR_EVER ? PIPE_SECONDS : request->wait;
    // Without O_NONBLOCK the open of a pipe would wait for its other end.
    int file = standard ? STDIN_FILENO : open(path, O_RDONLY | O_NONBLOCK | O_CLOEXEC);
    if (file < 0)
        return system_failure(request, "cannot open %s %s", what, path);
    bool taken = fstat(file, &input->status) == 0 &&
                 read_in_time(file, input->bytes, input->limit, &input->length,
                              standard ? WAIT_FOR_EVER : seconds);
    int status = 0;
    if (!taken && errno == ETIMEDOUT)
        status = failure(request, STATUS_FILE,
                         "nothing came from %s %s for %" PRIu64 " seconds; --wait waits longer",
                         what, path, seconds);
    else if (!taken)
        status = system_failure(request, "cannot read %s%s%s", standard ? "standard input" : what,
                                standard ? "" : " ", standard ? "" : path);
    if (!standard)
        close(file);
    return status;
}
