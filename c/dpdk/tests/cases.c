/* Runs one case of DPDK's tests: cases [EAL's options] -- NAME. `cases list` prints all names. The status is 0 if
 * the case passes, 1 if it fails, 77 if it is skipped, and CASE_CANT_BE. CASE_SECONDS is how long a delay takes that
 * DPDK's test wants to take seconds; those of the stress tests are a minute each. */
#include "cases.h"
#include "test.h"

#include <rte_cycles.h>
#include <rte_eal.h>

#include <stdio.h>
#include <string.h>

enum { MAX_CASES = 256 };

static struct {
    const char *name;
    int (*run)(unsigned);
    unsigned which;
} cases[MAX_CASES];
static unsigned count;
static unsigned seconds;

void case_add(const char *name, int (*run)(unsigned), unsigned which) {
    if (count == MAX_CASES) abort();
    cases[count].name = name;
    cases[count].run = run;
    cases[count++].which = which;
}

/* What the files of tests expect of the program that they are part of. */
const char *prgname;
int last_test_result;
void add_test_command(struct test_command *t) { (void)t; }
int unit_test_suite_runner(struct unit_test_suite *suite) { return suite ? -1 : 0; }

static void shorter_delay(unsigned int us) {
    rte_delay_us_block(us >= US_PER_S ? seconds * US_PER_S : us);
}

int main(int argc, char **argv) {
    if (argc == 2 && !strcmp(argv[1], "list")) {
        for (unsigned i = 0; i < count; i++) puts(cases[i].name);
        return 0;
    }
    const char *text = getenv("CASE_SECONDS");
    seconds = text ? (unsigned)atoi(text) : 60;
    prgname = argv[0];
    int used = rte_eal_init(argc, argv);
    if (used < 0 || used + 1 >= argc) return 2;
    rte_delay_us_callback_register(shorter_delay);
    unsigned i = 0;
    while (i < count && strcmp(cases[i].name, argv[used + 1])) i++;
    if (i == count) return 2;
    int got = cases[i].run(cases[i].which);
    fflush(stdout);
    return got == 0 || got == TEST_SKIPPED || got == CASE_CANT_BE ? got : 1;
}
