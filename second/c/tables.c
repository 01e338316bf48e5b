/* Random tables: planned ones, full ones, loose ones, and all of these spoiled. */
#include <string.h>

#include "aurhennig.h"
#include "inputs.h"
#include "random.h"

/* The table of a set that is accepted; an empty one where none is found soon. */
static void planned_table(table_input *table)
{
    static set_input set;
    for (int tries = 0; tries < 5; tries++) {
        good_set(&set);
        aurhennig_reply reply =
            aurhennig_plan(set.frame, set.cores, set.budgets, set.budget_count, set.masks, set.mask_count, table->numbers, 4 * MOST_PIECES);
        if (reply.number == 0) {
            table->frame = set.frame, table->cores = set.cores, table->len = 4 * reply.count;
            return;
        }
    }
    table->frame = set.frame, table->cores = set.cores, table->len = 0;
}

static void put_piece(table_input *table, uint64_t core, uint64_t task, uint64_t start, uint64_t length)
{
    uint32_t *piece = table->numbers + table->len;
    piece[0] = (uint32_t)core, piece[1] = (uint32_t)task, piece[2] = (uint32_t)start, piece[3] = (uint32_t)length;
    table->len += 4;
}

/* As many pieces of one unit as are allowed, or some more or less. */
static void full_table(table_input *table)
{
    static const size_t counts[] = {94, 95, 95, 96, 200};
    size_t count = counts[below(5)];
    table->frame = 200, table->cores = (uint32_t)between(1, MOST_CORES), table->len = 0;
    for (size_t k = 0; k < count; k++)
        put_piece(table, 0, k % MOST_TASKS, k, 1);
}

/* Pieces with gaps; two of one task seldom run at once. */
static void loose_table(table_input *table)
{
    table->frame = (uint32_t)between(20, 100), table->cores = (uint32_t)between(1, 4), table->len = 0;
    uint64_t tasks = one_in(2) ? MOST_TASKS : between(1, 8);
    for (uint32_t core = 0; core < table->cores; core++)
        for (uint64_t start = below(5); start + 4 <= table->frame && table->len < 4 * 23 * (core + 1); start += between(4, 20))
            put_piece(table, core, below(tasks), start, between(1, 4));
}

static void spoil_piece(table_input *table)
{
    static const uint32_t extremes[] = {0, 15, 16, 63, 64, MOST_FRAME, UINT32_MAX - 1, UINT32_MAX};
    uint32_t *piece = table->numbers + 4 * below(table->len / 4), *other = table->numbers + 4 * below(table->len / 4);
    uint32_t copy[4];
    switch (below(6)) {
    case 0:
        memcpy(copy, piece, sizeof copy), memcpy(piece, other, sizeof copy), memcpy(other, copy, sizeof copy);
        break;
    case 1:
        piece[3]++;
        break;
    case 2:
        piece[1] = other[1];
        break;
    case 3:
        piece[2] = UINT32_MAX - (uint32_t)below(4), piece[3] = (uint32_t)between(1, 8);
        break;
    case 4:
        piece[below(4)] = extremes[below(8)];
        break;
    default:
        piece[below(4)] = (uint32_t)random_word();
    }
}

static void spoil_table(table_input *table)
{
    static const uint32_t frames[] = {0, 1, MOST_FRAME + 1, UINT32_MAX}, cores[] = {0, 1, MOST_CORES + 1, UINT32_MAX};
    switch (below(10)) {
    case 0:
        table->frame = frames[below(4)];
        break;
    case 1:
        table->cores = cores[below(4)];
        break;
    case 2:
        table->frame -= table->frame > 0;
        break;
    case 3:
        table->len -= table->len < 4 ? table->len : between(1, 3);
        break;
    case 4:
        table->len += between(1, 3);
        break;
    case 5:
        put_piece(table, below(17), below(65), below(MOST_FRAME), below(4));
        break;
    default:
        if (table->len >= 4)
            spoil_piece(table);
    }
}

void random_table(table_input *table)
{
    /* What stands beyond a table is read by no call, and must not be left open here. */
    memset(table->numbers, 0, sizeof table->numbers);
    switch (below(6)) {
    case 0:
        loose_table(table);
        break;
    case 1:
        full_table(table);
        break;
    default:
        planned_table(table);
    }
    if (one_in(2))
        for (uint64_t faults = between(1, 2); faults > 0; faults--)
            spoil_table(table);
}
