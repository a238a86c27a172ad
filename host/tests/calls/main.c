// Runs every part of the test on the archive that it is linked with.
#include "calls.h"
#include "tests.h"

#include <stdio.h>
#include <stdlib.h>

static const struct {
    const char *name;
    void (*run)(void);
} parts[] = {
    {"constants and helpers of pat.h", test_header},
    {"document 01's table", test_table},
    {"known answers", test_known},
    {"refusals in their order", test_refusals},
    {"bytes and sets of tags altered", test_flips},
    {"histories against a plain array", test_histories},
    {"the write in place against the write", test_in_place},
    {"known answers of split writes", test_known_plans},
    {"split writes against writes", test_plans},
    {"orders of tags, wrong and late tags, plans left unfinished", test_orders},
    {"puts under plans of any bytes", test_puts},
    {"known answers of journalled writes, and journals of no write", test_known_journals},
    {"journalled writes against writes, and journals that are passed over", test_journals},
    {"cuts at every byte of the four steps, and recoveries", test_cuts},
};

int main(void) {
    if (getenv("PAT_TEST_EXACT") == NULL)
        watch_fences();
    for (size_t k = 0; k < sizeof parts / sizeof *parts; k++) {
        struct count before = count_so_far();
        parts[k].run();
        struct count after = count_so_far();
        printf("%7lu calls, %7lu checks: %s\n", after.calls - before.calls,
               after.held - before.held, parts[k].name);
        fflush(stdout);
    }
    struct count all = count_so_far();
    printf("%7lu calls, %7lu checks in all\n", all.calls, all.held);
    return 0;
}
