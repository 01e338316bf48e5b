/* What was tried, what came, and the one line on a failure. */
#ifndef REPORT_H
#define REPORT_H

#include <stdint.h>

enum call { PLAN, CHECK_TABLE, COUNT_MOVES, WALK, PLAN_LINE, CALLS };

/* Names what comes next: a settled example, or a random call with its seed and number. */
void next_example(const char *what);
void next_call(uint64_t seed, uint64_t number);

/* One line that names it and says what is wrong, and the end, where something does not hold. */
void right(int holds, const char *wrong);

/* The same from inside a signal handler. */
void stopped(int signal_number);

/* Counts an answer. */
void came(enum call call, uint64_t number);

/* How many of each number came from each call. */
void print_counts(void);

/* A number that a call can give and that never came, in words; null if all came. */
const char *never_came(void);

#endif
