#include "trials.h"

#include <string.h>

#include "answer_line.h"
#include "expected.h"
#include "on_lent.h"
#include "random.h"
#include "report.h"

/* An accepted plan's table is one for the table check too, with the same frame and cores. */
static void judge_table(const set_input *set, const uint32_t *pieces, size_t count)
{
    aurhennig_reply checked = aurhennig_check_table(set->frame, set->cores, pieces, 4 * count);
    right(checked.number == 0, "the table check refuses a planned table");
    right(count <= pieces_needed(set), "more than n + 2m - 1 pieces");
    right(has_budgets(set, pieces, count), "a planned table misses a budget or a mask");
}

static void judge_plan(const set_input *set, aurhennig_reply reply, const uint32_t *written)
{
    aurhennig_reply refusal = expected_plan(set);
    if (refusal.number != 0)
        right(same_reply(reply, refusal), "not the refusal that the set must get, or not what it carries");
    else if (reply.number == 0)
        judge_table(set, written, reply.count);
    else
        right(reply.number == 7 && is_overload(set, reply.first, reply.second), "neither a table nor an overload");
}

void try_plan(void)
{
    static set_input set;
    const uint32_t *written;
    random_set(&set);
    aurhennig_reply reply = plan_on_lent(&set, &written);
    judge_plan(&set, reply, written);
}

void try_check_table(void)
{
    static table_input table;
    random_table(&table);
    right(same_reply(check_on_lent(&table), expected_check(&table)), "not the answer that the table must get");
}

void try_count_moves(void)
{
    static table_input table;
    random_table(&table);
    right(same_reply(moves_on_lent(&table), expected_moves(&table)), "not the moves that the table has, or not its refusal");
}

void try_walk(void)
{
    static table_input table;
    static job_input jobs;
    const uint64_t *finishes;
    random_table(&table);
    random_jobs(&jobs, &table);
    aurhennig_reply reply = walk_on_lent(&table, &jobs, &finishes);
    right(same_reply(reply, expected_walk(&table, &jobs)), "not the answer, or not the job, that the walk must get");
    for (size_t job = 0; job < reply.count; job++) {
        right(finishes[job] >= jobs.releases[job], "a finish before its release");
        right(job == 0 || finishes[job] >= finishes[job - 1], "a finish before the one before it");
    }
}

/* The line call says what the planner says on a table of 95 pieces, or that the line is not well written. */
static size_t wanted_line(uint8_t *line, size_t len, uint8_t *wanted)
{
    static set_input set;
    uint32_t table[4 * MOST_PIECES];
    aurhennig_reply reply = {12, 0, 0, 0};
    if (read_set(line, len, &set))
        reply = aurhennig_plan(set.frame, set.cores, set.budgets, set.budget_count, set.masks, set.mask_count, table, set.table_len);
    right(reply.count <= MOST_PIECES, "more than 95 pieces");
    came(PLAN_LINE, reply.number);
    return (size_t)(put_plan_answer(wanted, reply, table) - wanted);
}

static size_t random_line(uint8_t *line)
{
    static set_input set;
    do
        random_set(&set);
    while (!has_line(&set));
    size_t len = set_line(&set, line);
    return one_in(4) ? damage_line(line, len) : len;
}

void try_plan_line(void)
{
    static uint8_t line[LINE_ROOM];
    uint8_t wanted[AURHENNIG_LEAST_OUTPUT];
    const uint8_t *output;
    size_t len = random_line(line);
    size_t room = one_in(8) ? below(AURHENNIG_LEAST_OUTPUT) : AURHENNIG_LEAST_OUTPUT + (one_in(2) ? 0 : below(100));
    size_t wrote = line_on_lent(line, len, room, &output);
    if (room < AURHENNIG_LEAST_OUTPUT) {
        right(wrote == 0, "an answer in an output below the least");
        came(PLAN_LINE, 6);
        return;
    }
    size_t wanted_len = wanted_line(line, len, wanted);
    right(wrote == wanted_len && memcmp(output, wanted, wrote) == 0, "the line call and the planner differ");
}
