/* What documents 01 and 02 ask of the calls, in plain C, as far as it is quickly said: each refusal with what it carries, counts, and facts that an
 * accepted table and an overload must have. The judge has the rest: the whole overload, the finishes, the choices of a table. */
#ifndef EXPECTED_H
#define EXPECTED_H

#include "aurhennig.h"
#include "inputs.h"

int same_reply(aurhennig_reply one, aurhennig_reply other);

/* The answer of all tests but the last, 7; number 0 if they pass. */
aurhennig_reply expected_plan(const set_input *set);

/* The answers of the table check and of the move count. */
aurhennig_reply expected_check(const table_input *table);
aurhennig_reply expected_moves(const table_input *table);

/* The answer of the walk, but for the finishes themselves. */
aurhennig_reply expected_walk(const table_input *table, const job_input *jobs);

/* Whether the group has an excess above 0, and these are the cores of its masks. */
int is_overload(const set_input *set, uint64_t group, uint64_t cores);

/* Whether the pieces give each task its budget, on cores of its mask. */
int has_budgets(const set_input *set, const uint32_t *pieces, size_t count);

#endif
