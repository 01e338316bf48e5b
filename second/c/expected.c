#include "expected.h"

int same_reply(aurhennig_reply one, aurhennig_reply other)
{
    return one.number == other.number && one.first == other.first && one.second == other.second && one.count == other.count;
}

static aurhennig_reply reply(uint64_t number, uint64_t first, uint64_t count)
{
    aurhennig_reply r = {number, first, 0, count};
    return r;
}

/* 1, 2, or 0. */
static uint64_t size_number(uint32_t frame, uint32_t cores)
{
    if (frame == 0 || frame > MOST_FRAME)
        return 1;
    return cores == 0 || cores > MOST_CORES ? 2 : 0;
}

/* The lowest core at or above m in a mask; MOST_CORES if it has none. */
static uint32_t missing_core(uint16_t mask, uint32_t cores)
{
    uint32_t core = cores;
    while (core < MOST_CORES && !(mask >> core & 1))
        core++;
    return core;
}

/* 4, 13, 5, or number 0: each over all tasks before the next. */
static aurhennig_reply task_refusal(const set_input *set)
{
    size_t tasks = set->budget_count;
    for (size_t task = 0; task < tasks; task++)
        if (set->masks[task] == 0)
            return reply(4, task, 0);
    for (size_t task = 0; task < tasks; task++) {
        aurhennig_reply missing = {13, task, missing_core(set->masks[task], set->cores), 0};
        if (missing.second < MOST_CORES)
            return missing;
    }
    for (size_t task = 0; task < tasks; task++)
        if (set->budgets[task] > set->frame)
            return reply(5, task, 0);
    return reply(0, 0, 0);
}

aurhennig_reply expected_plan(const set_input *set)
{
    uint64_t number = size_number(set->frame, set->cores);
    if (number != 0)
        return reply(number, 0, 0);
    if (set->budget_count > MOST_TASKS || set->budget_count != set->mask_count)
        return reply(3, 0, 0);
    aurhennig_reply refusal = task_refusal(set);
    if (refusal.number != 0)
        return refusal;
    return reply(set->table_len / 4 < pieces_needed(set) ? 6 : 0, 0, 0);
}

static uint64_t end_of(const uint32_t *piece)
{
    return (uint64_t)piece[2] + piece[3];
}

/* Two pieces of one core or of one task that overlap. */
static int clash(const uint32_t *one, const uint32_t *other)
{
    return (one[0] == other[0] || one[1] == other[1]) && one[2] < end_of(other) && other[2] < end_of(one);
}

static int is_frame_table(const table_input *table)
{
    if (table->len % 4 != 0 || table->len / 4 > MOST_PIECES)
        return 0;
    const uint32_t *end = table->numbers + table->len;
    for (const uint32_t *piece = table->numbers; piece < end; piece += 4) {
        if (piece[0] >= table->cores || piece[1] >= MOST_TASKS || piece[3] == 0 || end_of(piece) > table->frame)
            return 0;
        if (piece + 4 < end && (piece[0] > piece[4] || (piece[0] == piece[4] && piece[2] > piece[6])))
            return 0;
        for (const uint32_t *later = piece + 4; later < end; later += 4)
            if (clash(piece, later))
                return 0;
    }
    return 1;
}

aurhennig_reply expected_check(const table_input *table)
{
    uint64_t number = size_number(table->frame, table->cores);
    return reply(number != 0 ? number : is_frame_table(table) ? 0 : 8, 0, 0);
}

/* The piece of the same task that is next before this one in the frame. */
static const uint32_t *piece_before(const table_input *table, const uint32_t *piece)
{
    const uint32_t *before = NULL;
    for (const uint32_t *other = table->numbers; other < table->numbers + table->len; other += 4)
        if (other[1] == piece[1] && other[2] < piece[2] && (!before || other[2] > before[2]))
            before = other;
    return before;
}

aurhennig_reply expected_moves(const table_input *table)
{
    aurhennig_reply checked = expected_check(table);
    if (checked.number != 0)
        return checked;
    uint64_t moves = 0;
    for (const uint32_t *piece = table->numbers; piece < table->numbers + table->len; piece += 4) {
        const uint32_t *before = piece_before(table, piece);
        moves += before && before[0] != piece[0];
    }
    return reply(0, 0, moves);
}

static int has_units(const table_input *table, uint32_t task)
{
    for (const uint32_t *piece = table->numbers; piece < table->numbers + table->len; piece += 4)
        if (piece[1] == task)
            return 1;
    return 0;
}

aurhennig_reply expected_walk(const table_input *table, const job_input *jobs)
{
    aurhennig_reply checked = expected_check(table);
    if (checked.number != 0)
        return checked;
    if (jobs->release_count != jobs->unit_count || jobs->release_count > MOST_JOBS)
        return reply(9, 0, 0);
    for (size_t job = 0; job < jobs->release_count; job++) {
        uint64_t release = jobs->releases[job];
        if ((job > 0 && release < jobs->releases[job - 1]) || release > MOST_RELEASE || jobs->units[job] > MOST_UNITS)
            return reply(9, job, 0);
    }
    int none = !has_units(table, jobs->task);
    for (size_t job = 0; none && job < jobs->unit_count; job++)
        if (jobs->units[job] > 0)
            return reply(10, job, 0);
    if (jobs->finish_count < jobs->release_count)
        return reply(11, 0, 0);
    return reply(0, 0, jobs->release_count);
}

int is_overload(const set_input *set, uint64_t group, uint64_t cores)
{
    uint64_t budgets = 0, joined = 0, room = 0;
    for (size_t task = 0; task < set->budget_count; task++)
        if (group >> task & 1)
            budgets += set->budgets[task], joined |= set->masks[task];
    for (uint32_t core = 0; core < set->cores; core++)
        room += joined >> core & 1 ? set->frame : 0;
    int no_others = set->budget_count == MOST_TASKS || group >> set->budget_count == 0;
    return no_others && joined == cores && budgets > room;
}

int has_budgets(const set_input *set, const uint32_t *pieces, size_t count)
{
    uint64_t units[MOST_TASKS] = {0};
    for (const uint32_t *piece = pieces; piece < pieces + 4 * count; piece += 4) {
        if (piece[1] >= set->budget_count || !(set->masks[piece[1]] >> piece[0] & 1))
            return 0;
        units[piece[1]] += piece[3];
    }
    for (size_t task = 0; task < set->budget_count; task++)
        if (units[task] != set->budgets[task])
            return 0;
    return 1;
}
