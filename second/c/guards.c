/* Tries the compiled calls: the settled examples first, then random calls on guarded arrays.
 *
 * use: guards [CALLS [SEED [WAY]]]    (100,000 calls, seed 1, by `words`; lent.h has the ways)
 *
 * It prints how many of each number came, and last `N calls, 0 wrong`. The first wrong answer ends it with one line that names the seed and the
 * call, and 1. */
#include <errno.h>
#include <inttypes.h>
#include <signal.h>
#include <stdio.h>
#include <stdlib.h>
#include <string.h>

#include "lent.h"
#include "random.h"
#include "report.h"
#include "trials.h"

/* With fewer calls than this a number may be missing by chance. */
enum { MIXED_CALLS = 20000 };

static uint64_t number(const char *name, const char *word)
{
    char *end;
    errno = 0;
    unsigned long long value = strtoull(word, &end, 10);
    if (*word < '0' || *word > '9' || *end != '\0' || errno != 0) {
        fprintf(stderr, "guards: %s '%s' is not a whole number of 64 bits\n", name, word);
        exit(2);
    }
    return value;
}

/* Each call has random numbers of its own, so that it does not hang on those before it. */
static void try_call(uint64_t seed, uint64_t call)
{
    next_call(seed, call);
    start_random(seed);
    start_random(random_word() + call);
    uint64_t kind = below(20);
    if (kind < 8)
        try_plan();
    else if (kind < 11)
        try_check_table();
    else if (kind < 14)
        try_count_moves();
    else if (kind < 18)
        try_walk();
    else
        try_plan_line();
}

int main(int words, char **word)
{
    uint64_t calls = words > 1 ? number("CALLS", word[1]) : 100000, seed = words > 2 ? number("SEED", word[2]) : 1;
    if (words > 4 || (words > 3 && !lend_by(word[3]))) {
        fprintf(stderr, "use: guards [CALLS [SEED [words|heap|pages]]]\n");
        return 2;
    }
    if (words > 3 && strcmp(word[3], "pages") == 0)
        signal(SIGSEGV, stopped);
    try_settled();
    for (uint64_t call = 0; call < calls; call++)
        try_call(seed, call);
    lent_back();
    print_counts();
    if (calls >= MIXED_CALLS && never_came()) {
        fprintf(stderr, "seed %" PRIu64 ": %s never came\n", seed, never_came());
        return 1;
    }
    printf("%" PRIu64 " calls, 0 wrong\n", calls);
    return 0;
}
