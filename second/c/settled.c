/* Document 01's settled examples, and each number at its edges: what is handed back, to the value. */
#include <string.h>

#include "aurhennig.h"
#include "expected.h"
#include "on_lent.h"
#include "report.h"
#include "trials.h"

typedef struct {
    const char *what;
    set_input set;
    aurhennig_reply reply;
    uint32_t table[4 * 5];
} plan_example;

/* n tasks with their budgets and masks, and the numbers lent for the table. */
#define SET(f, m, n, room, ...) {.frame = f, .cores = m, .budget_count = n, .mask_count = n, .table_len = room, __VA_ARGS__}
#define BUDGETS(...) .budgets = {__VA_ARGS__}
#define MASKS(...) .masks = {__VA_ARGS__}
#define P1_SET(room) SET(6, 2, 3, room, BUDGETS(4, 3, 5), MASKS(3, 1, 2))
#define P1_TABLE {0, 0, 0, 3, 0, 1, 3, 3, 1, 2, 0, 3, 1, 0, 3, 1, 1, 2, 4, 2}

static const plan_example plans[] = {
    {"P1", P1_SET(380), {0, 0, 0, 5}, P1_TABLE},
    {"P1 on the least table", P1_SET(24), {0, 0, 0, 5}, P1_TABLE},
    {"P2", SET(10, 2, 3, 380, BUDGETS(8, 8, 3), MASKS(1, 1, 2)), {7, 3, 1, 0}, {0}},
    {"P3", SET(10, 2, 3, 380, BUDGETS(6, 6, 10), MASKS(1, 1, 2)), {7, 3, 1, 0}, {0}},
    {"P4", SET(10, 2, 1, 380, BUDGETS(11), MASKS(3)), {5, 0, 0, 0}, {0}},
    {"P5", SET(10, 1, 2, 380, BUDGETS(5, 5), MASKS(1, 1)), {0, 0, 0, 2}, {0, 0, 0, 5, 0, 1, 5, 5}},
    {"P6", SET(10, 1, 2, 380, BUDGETS(5, 6), MASKS(1, 1)), {7, 3, 1, 0}, {0}},
    {"P7", SET(10, 2, 2, 380, BUDGETS(5, 10), MASKS(3, 1)), {0, 0, 0, 2}, {0, 1, 0, 10, 1, 0, 0, 5}},
    {"P8", SET(10, 1, 1, 380, BUDGETS(0), MASKS(1)), {0, 0, 0, 0}, {0}},
    {"no tasks", SET(10, 2, 0, 12, BUDGETS(0), MASKS(0)), {0, 0, 0, 0}, {0}},
    {"F 0 with m 0", SET(0, 0, 0, 380, BUDGETS(0), MASKS(0)), {1, 0, 0, 0}, {0}},
    {"F above 1,000,000", SET(1000001, 17, 0, 380, BUDGETS(0), MASKS(0)), {1, 0, 0, 0}, {0}},
    {"m 0", SET(10, 0, 65, 380, BUDGETS(0), MASKS(0)), {2, 0, 0, 0}, {0}},
    {"m above 16", SET(10, 17, 65, 380, BUDGETS(0), MASKS(0)), {2, 0, 0, 0}, {0}},
    {"65 tasks", SET(10, 2, 65, 380, BUDGETS(0), MASKS(0)), {3, 0, 0, 0}, {0}},
    {"a mask too few", {10, 2, 2, 1, {11}, {0}, 0}, {3, 0, 0, 0}, {0}},
    {"an empty mask beside a budget above F", SET(10, 2, 2, 380, BUDGETS(11, 1), MASKS(1, 0)), {4, 1, 0, 0}, {0}},
    {"an empty mask after a missing core", SET(10, 2, 2, 380, BUDGETS(1, 1), MASKS(4, 0)), {4, 1, 0, 0}, {0}},
    {"an empty mask on 16 cores", SET(10, 16, 2, 380, BUDGETS(11, 1), MASKS(0xffff, 0)), {4, 1, 0, 0}, {0}},
    {"a core at m", SET(10, 2, 3, 380, BUDGETS(1, 1, 1), MASKS(3, 2, 4)), {13, 2, 2, 0}, {0}},
    {"core 15 on 2 cores", SET(10, 2, 1, 380, BUDGETS(1), MASKS(0x8001)), {13, 0, 15, 0}, {0}},
    {"core 15 on 15 cores", SET(10, 15, 1, 380, BUDGETS(0), MASKS(0xffff)), {13, 0, 15, 0}, {0}},
    {"several missing cores", SET(10, 2, 2, 380, BUDGETS(1, 1), MASKS(3, 0xa009)), {13, 1, 3, 0}, {0}},
    {"a lower missing core on a later task", SET(10, 2, 2, 380, BUDGETS(1, 1), MASKS(0x20, 4)), {13, 0, 5, 0}, {0}},
    {"a missing core after a budget above F", SET(10, 2, 2, 0, BUDGETS(11, 1), MASKS(3, 4)), {13, 1, 2, 0}, {0}},
    {"core 15 on 16 cores", SET(10, 16, 1, 380, BUDGETS(10), MASKS(0x8000)), {0, 0, 0, 1}, {15, 0, 0, 10}},
    {"all 16 cores and a budget above F", SET(10, 16, 1, 380, BUDGETS(11), MASKS(0xffff)), {5, 0, 0, 0}, {0}},
    {"budgets above F", SET(10, 2, 3, 0, BUDGETS(10, 11, UINT32_MAX), MASKS(3, 3, 3)), {5, 1, 0, 0}, {0}},
    {"a table short of a number", P1_SET(23), {6, 0, 0, 0}, {0}},
    {"a short table before an overload", SET(10, 2, 3, 23, BUDGETS(8, 8, 3), MASKS(1, 1, 2)), {6, 0, 0, 0}, {0}},
};

typedef struct {
    const char *what;
    table_input table;
    uint64_t number, moves;
} table_example;

static const table_example tables[] = {
    {"the table of P1", {6, 2, 20, P1_TABLE}, 0, 1},
    {"an empty table", {6, 2, 0, {0}}, 0, 0},
    {"F 0 and a table that is none", {0, 0, 1, {0}}, 1, 0},
    {"m 17 and a table that is none", {6, 17, 1, {0}}, 2, 0},
    {"P1's table without its last number", {6, 2, 19, P1_TABLE}, 8, 0},
    {"P1's table on one core", {6, 1, 20, P1_TABLE}, 8, 0},
    {"P1's table in a shorter frame", {5, 2, 20, P1_TABLE}, 8, 0},
    {"a start and a length beyond 32 bits", {6, 2, 4, {0, 0, UINT32_MAX, 2}}, 8, 0},
};

typedef struct {
    const char *what;
    table_input table;
    job_input jobs;
    aurhennig_reply reply;
    uint64_t finishes[2];
} walk_example;

#define JOBS(who, n, room, ...) {.task = who, .release_count = n, .unit_count = n, .finish_count = room, __VA_ARGS__}
#define RELEASES(...) .releases = {__VA_ARGS__}
#define UNITS(...) .units = {__VA_ARGS__}
#define OVER_P1 {6, 2, 20, P1_TABLE}

static const walk_example walks[] = {
    {"P9", OVER_P1, JOBS(0, 1, 1, RELEASES(1), UNITS(4)), {0, 0, 0, 1}, {7, 0}},
    {"P10", OVER_P1, JOBS(0, 2, 2, RELEASES(4, 13), UNITS(6, 6)), {0, 0, 0, 2}, {14, 22}},
    {"P10 with a longer finish list", OVER_P1, JOBS(0, 2, 9, RELEASES(4, 13), UNITS(6, 6)), {0, 0, 0, 2}, {14, 22}},
    {"no jobs", OVER_P1, JOBS(9, 0, 0, RELEASES(0), UNITS(0)), {0, 0, 0, 0}, {0}},
    {"no units asked of no units", OVER_P1, JOBS(9, 2, 2, RELEASES(4, 13), UNITS(0, 0)), {0, 0, 0, 2}, {4, 13}},
    {"F 0", {0, 0, 1, {0}}, JOBS(0, 1, 0, RELEASES(1), UNITS(4)), {1, 0, 0, 0}, {0}},
    {"m 0", {6, 0, 1, {0}}, JOBS(0, 1, 0, RELEASES(1), UNITS(4)), {2, 0, 0, 0}, {0}},
    {"no table", {6, 2, 1, {0}}, {0, 1, 2, 0, {1}, {4}}, {8, 0, 0, 0}, {0}},
    {"more units than releases", OVER_P1, {9, 1, 2, 0, {1}, {4}}, {9, 0, 0, 0}, {0}},
    {"4,097 jobs", OVER_P1, JOBS(9, 4097, 0, RELEASES(0, 9, 8), UNITS(1)), {9, 0, 0, 0}, {0}},
    {"a release that falls", OVER_P1, JOBS(9, 3, 0, RELEASES(4, 5, 4), UNITS(6, 6, 1000001)), {9, 2, 0, 0}, {0}},
    {"a release above the limit", OVER_P1, JOBS(9, 2, 0, RELEASES(4, MOST_RELEASE + 1), UNITS(6, 6)), {9, 1, 0, 0}, {0}},
    {"units above the limit", OVER_P1, JOBS(9, 2, 0, RELEASES(4, 13), UNITS(1000001, 6)), {9, 0, 0, 0}, {0}},
    {"a task without units", OVER_P1, JOBS(9, 2, 0, RELEASES(4, 13), UNITS(0, 6)), {10, 1, 0, 0}, {0}},
    {"a finish list that is short", OVER_P1, JOBS(0, 2, 1, RELEASES(4, 13), UNITS(6, 6)), {11, 0, 0, 0}, {0}},
};

static void try_tables(void)
{
    for (size_t k = 0; k < sizeof tables / sizeof *tables; k++) {
        const table_example *e = &tables[k];
        aurhennig_reply checked = {e->number, 0, 0, 0}, counted = {e->number, 0, 0, e->moves};
        next_example(e->what);
        right(same_reply(check_on_lent(&e->table), checked), "not the settled answer of the table check");
        right(same_reply(moves_on_lent(&e->table), counted), "not the settled answer of the move count");
    }
}

void try_settled(void)
{
    for (size_t k = 0; k < sizeof plans / sizeof *plans; k++) {
        const uint32_t *table;
        next_example(plans[k].what);
        aurhennig_reply reply = plan_on_lent(&plans[k].set, &table);
        right(same_reply(reply, plans[k].reply), "not the settled answer");
        right(memcmp(table, plans[k].table, 16 * reply.count) == 0, "not the settled table");
    }
    try_tables();
    for (size_t k = 0; k < sizeof walks / sizeof *walks; k++) {
        const uint64_t *finishes;
        next_example(walks[k].what);
        aurhennig_reply reply = walk_on_lent(&walks[k].table, &walks[k].jobs, &finishes);
        right(same_reply(reply, walks[k].reply), "not the settled answer");
        right(memcmp(finishes, walks[k].finishes, 8 * reply.count) == 0, "not the settled finishes");
    }
}
