#include "on_lent.h"

#include "lent.h"
#include "report.h"

/* What an answer may have written: `bytes` at the front of `written` if it is accepted, nothing otherwise. */
static void kept(aurhennig_reply reply, const void *written, size_t bytes)
{
    if (reply.number == 0) {
        right(reply.first == 0 && reply.second == 0, "an accepted answer carries a value");
        right(!lent_changed(written, bytes), "an accepted answer changed more than its result");
    } else {
        right(reply.count == 0, "a refusal has a count");
        right(!lent_changed(NULL, 0), "a refusal changed lent memory");
    }
}

aurhennig_reply plan_on_lent(const set_input *set, const uint32_t **written)
{
    lent_back();
    const uint32_t *budgets = lend_copy(set->budgets, set->budget_count, sizeof *budgets);
    const uint16_t *masks = lend_copy(set->masks, set->mask_count, sizeof *masks);
    uint32_t *table = lend(set->table_len, sizeof *table);
    lent_begin();
    aurhennig_reply reply = aurhennig_plan(set->frame, set->cores, budgets, set->budget_count, masks, set->mask_count, table, set->table_len);
    came(PLAN, reply.number);
    right(reply.count <= set->table_len / 4, "more pieces than the lent table holds");
    kept(reply, table, 4 * sizeof *table * reply.count);
    *written = table;
    return reply;
}

/* The table check and the move count are lent the same, and write nothing. */
static aurhennig_reply table_on_lent(const table_input *table, enum call call)
{
    lent_back();
    const uint32_t *numbers = lend_copy(table->numbers, table->len, sizeof *numbers);
    lent_begin();
    aurhennig_reply reply = call == CHECK_TABLE ? aurhennig_check_table(table->frame, table->cores, numbers, table->len)
                                                : aurhennig_count_moves(table->frame, table->cores, numbers, table->len);
    came(call, reply.number);
    kept(reply, NULL, 0);
    return reply;
}

aurhennig_reply check_on_lent(const table_input *table)
{
    return table_on_lent(table, CHECK_TABLE);
}

aurhennig_reply moves_on_lent(const table_input *table)
{
    return table_on_lent(table, COUNT_MOVES);
}

aurhennig_reply walk_on_lent(const table_input *table, const job_input *jobs, const uint64_t **written)
{
    lent_back();
    const uint32_t *numbers = lend_copy(table->numbers, table->len, sizeof *numbers);
    const uint64_t *releases = lend_copy(jobs->releases, jobs->release_count, sizeof *releases);
    const uint32_t *units = lend_copy(jobs->units, jobs->unit_count, sizeof *units);
    uint64_t *finishes = lend(jobs->finish_count, sizeof *finishes);
    lent_begin();
    aurhennig_reply reply = aurhennig_walk(table->frame, table->cores, numbers, table->len, jobs->task, releases, jobs->release_count, units,
                                           jobs->unit_count, finishes, jobs->finish_count);
    came(WALK, reply.number);
    right(reply.count <= jobs->finish_count, "more finishes than the lent list holds");
    kept(reply, finishes, sizeof *finishes * reply.count);
    *written = finishes;
    return reply;
}

/* Of an answer line only its length is known here; 0 stands for 6, which writes nothing. */
size_t line_on_lent(const uint8_t *line, size_t len, size_t output_len, const uint8_t **written)
{
    lent_back();
    const uint8_t *input = lend_copy(line, len, 1);
    uint8_t *output = lend(output_len, 1);
    lent_begin();
    size_t wrote = aurhennig_plan_line(input, len, output, output_len);
    right(wrote <= output_len, "a line longer than the lent output");
    right(!lent_changed(output, wrote), "the line call changed more than its line");
    *written = output;
    return wrote;
}
