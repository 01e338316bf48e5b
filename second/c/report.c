#define _POSIX_C_SOURCE 200809L /* write */
#include "report.h"

#include <inttypes.h>
#include <stdio.h>
#include <stdlib.h>
#include <string.h>
#include <unistd.h>

enum { NUMBERS = 14 };

static const char *const names[CALLS] = {"plan", "check_table", "count_moves", "walk", "plan_line"};
static uint64_t counts[CALLS][NUMBERS];
static char now[100];

void next_example(const char *what)
{
    snprintf(now, sizeof now, "example %s", what);
}

void next_call(uint64_t seed, uint64_t number)
{
    snprintf(now, sizeof now, "seed %" PRIu64 ", call %" PRIu64, seed, number);
}

void right(int holds, const char *wrong)
{
    if (holds)
        return;
    fprintf(stderr, "%s: %s\n", now, wrong);
    exit(1);
}

void stopped(int signal_number)
{
    static const char why[] = ": the call read or wrote outside what it was lent\n";
    (void)signal_number;
    if (write(2, now, strlen(now)) < 0 || write(2, why, sizeof why - 1) < 0)
        _exit(2);
    _exit(1);
}

void came(enum call call, uint64_t number)
{
    right(number < NUMBERS, "a number that no call gives");
    counts[call][number]++;
}

void print_counts(void)
{
    printf("%-12s", "number");
    for (int number = 0; number < NUMBERS; number++)
        printf("%7d", number);
    for (int call = 0; call < CALLS; call++) {
        printf("\n%-12s", names[call]);
        for (int number = 0; number < NUMBERS; number++)
            printf("%7" PRIu64, counts[call][number]);
    }
    printf("\n");
}

const char *never_came(void)
{
    /* Bit k for number k. 6 of plan_line is the answer without a line. */
    static const unsigned given[CALLS] = {0x20ff, 0x0107, 0x0107, 0x0f07, 0x30ff};
    static char what[40];
    for (int call = 0; call < CALLS; call++)
        for (int number = 0; number < NUMBERS; number++)
            if (given[call] >> number & 1 && counts[call][number] == 0) {
                snprintf(what, sizeof what, "number %d of %s", number, names[call]);
                return what;
            }
    return NULL;
}
