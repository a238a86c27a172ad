#include "lent.h"

#include <signal.h>
#include <stdio.h>
#include <stdlib.h>
#include <string.h>
#include <sys/mman.h>
#include <unistd.h>

enum { PAGE = 4096, FILL = 0xa5 };

static void *sure(void *memory) {
    if (memory == NULL || memory == MAP_FAILED) {
        perror("memory");
        exit(2);
    }
    return memory;
}

static bool exact(void) {
    static int known = -1;
    if (known < 0)
        known = getenv("PAT_TEST_EXACT") != NULL;
    return known == 1;
}

// Pages for the buffer at their end, and behind them one that may not be touched.
static void map_pages(struct lent *lent, const uint8_t *bytes, enum access access) {
    size_t used = (lent->length + PAGE - 1) / PAGE * PAGE;
    lent->size = used + PAGE;
    lent->memory =
        sure(mmap(NULL, lent->size, PROT_READ | PROT_WRITE, MAP_PRIVATE | MAP_ANONYMOUS, -1, 0));
    lent->bytes = lent->memory + used - lent->length;
    memset(lent->memory, FILL, used - lent->length);
    memcpy(lent->bytes, bytes, lent->length);
    int failed = mprotect(lent->memory + used, PAGE, PROT_NONE);
    if (access == READ_ONLY && used > 0)
        failed |= mprotect(lent->memory, used, PROT_READ);
    sure(failed ? NULL : lent->memory);
}

void lend(struct lent *lent, const uint8_t *bytes, size_t length, enum access access) {
    lent->length = length;
    lent->before = sure(malloc(length + 1));
    memcpy(lent->before, bytes, length);
    if (!exact()) {
        map_pages(lent, bytes, access);
        return;
    }
    lent->size = 0;
    lent->memory = lent->bytes = sure(malloc(length));
    memcpy(lent->bytes, bytes, length);
}

bool unchanged(const struct lent *lent) {
    return unchanged_from(lent, 0);
}

bool unchanged_from(const struct lent *lent, size_t start) {
    return lent->memory == NULL ||
           memcmp(lent->bytes + start, lent->before + start, lent->length - start) == 0;
}

bool take_back(struct lent *lent) {
    bool kept = true;
    for (const uint8_t *byte = lent->memory; byte < lent->bytes; byte++)
        kept = kept && *byte == FILL;
    free(lent->before);
    if (lent->size == 0)
        free(lent->memory);
    else
        munmap(lent->memory, lent->size);
    return kept;
}

static void stop(int number) {
    static const char word[] = "FAILED: a call touched memory outside its buffers, or wrote to one "
                               "that it may only read\n";
    (void)number;
    ssize_t written = write(STDERR_FILENO, word, sizeof word - 1);
    _exit(written > 0 ? 1 : 2);
}

void watch_fences(void) {
    struct sigaction action = {.sa_handler = stop};
    sigaction(SIGSEGV, &action, NULL);
    sigaction(SIGBUS, &action, NULL);
}
