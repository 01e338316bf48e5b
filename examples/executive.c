/* A small executive, made to start from: it plans a set of named models, prints what each core runs, and tells when one model's jobs finish. Then it
 * plans a set that does not fit and one made for a larger rack, and says why. Exit code 0 only if all go as they should.
 *
 *   make install && cc -o executive examples/executive.c $(PKG_CONFIG_PATH=target/install/lib/pkgconfig pkg-config --cflags --libs aurhennig)
 */
#include <inttypes.h>
#include <stdio.h>

#include "aurhennig.h"

/* Core j in a mask; several are joined by |. */
#define CORE(j) (1u << (j))
#define COUNT(array) (sizeof(array) / sizeof *(array))

/* The numbers of a piece, in their order. */
enum { PIECE_CORE, PIECE_TASK, PIECE_START, PIECE_LENGTH };

struct model {
    const char *name;
    uint32_t budget; /* its units in each frame */
    uint16_t mask;   /* the cores on which it may run */
};

struct set {
    uint32_t frame, cores;
    const struct model *models;
    size_t count;
};

/* What to do about each refusal; an overload and a missing core are told by their values. */
static const char *const advice[] = {
    [AURHENNIG_FRAME_LENGTH] = "give the frame 1 to 1,000,000 units",
    [AURHENNIG_CORE_COUNT] = "plan 1 to 16 cores in one table",
    [AURHENNIG_TASK_COUNT] = "plan at most 64 models in one table",
    [AURHENNIG_EMPTY_MASK] = "its mask is empty: give it a core",
    [AURHENNIG_BUDGET] = "its budget is above the frame: lower it, or lengthen the frame",
    [AURHENNIG_SHORT_TABLE] = "lend the planner AURHENNIG_TABLE_LEN numbers",
    [AURHENNIG_NOT_TABLE] = "this is not a frame table: plan the set again, and hand on its pieces alone with the same frame and cores",
    [AURHENNIG_JOB_LIST] = "give at most 4,096 jobs in order of release, none later than 1,000,000,000,000, none of more than 1,000,000 units",
    [AURHENNIG_NO_UNITS] = "it asks units of a model that has none: give the model a budget",
    [AURHENNIG_SHORT_FINISHES] = "lend a finish place for each job",
};

/* The planner takes budgets and masks in lists of their own, and model i is its task i. */
static aurhennig_reply plan(const struct set *set, uint32_t *table, size_t table_len)
{
    uint32_t budgets[AURHENNIG_MOST_TASKS];
    uint16_t masks[AURHENNIG_MOST_TASKS];
    if (set->count > AURHENNIG_MOST_TASKS) {
        aurhennig_reply too_many = {AURHENNIG_TASK_COUNT, 0, 0, 0};
        return too_many;
    }
    for (size_t i = 0; i < set->count; i++) {
        budgets[i] = set->models[i].budget;
        masks[i] = set->models[i].mask;
    }
    return aurhennig_plan(set->frame, set->cores, budgets, set->count, masks, set->count, table, table_len);
}

/* A row for each core. The pieces stand by core and then by start, so one pass over them fills all rows. */
static void print_table(const struct set *set, const uint32_t *table, size_t table_len)
{
    const uint32_t *piece = table, *end = table + table_len;
    for (uint32_t core = 0; core < set->cores; core++) {
        const char *mark = " ";
        printf("  core %" PRIu32 ":%s", core, piece == end || piece[PIECE_CORE] != core ? " idle" : "");
        for (; piece != end && piece[PIECE_CORE] == core; piece += AURHENNIG_PIECE_LEN) {
            uint32_t start = piece[PIECE_START];
            printf("%s%s %" PRIu32 "-%" PRIu32, mark, set->models[piece[PIECE_TASK]].name, start, start + piece[PIECE_LENGTH]);
            mark = ", ";
        }
        printf("\n");
    }
}

static void print_overload(const struct set *set, uint64_t group, uint64_t cores)
{
    uint64_t asked = 0, room = 0;
    const char *mark = "  overload: ";
    for (size_t i = 0; i < set->count; i++) {
        if (group >> i & 1) {
            printf("%s%s", mark, set->models[i].name);
            asked += set->models[i].budget;
            mark = ", ";
        }
    }
    mark = " do not fit on cores {";
    for (uint32_t j = 0; j < set->cores; j++) {
        if (cores >> j & 1) {
            printf("%s%" PRIu32, mark, j);
            room += set->frame;
            mark = ",";
        }
    }
    printf("}: they ask %" PRIu64 " units of %" PRIu64 ", %" PRIu64 " too many\n", asked, room, asked - room);
}

static void print_missing_core(const struct set *set, uint64_t task, uint64_t core)
{
    printf("  refused: %s: its mask names core %" PRIu64 ", and the rack's last core is %" PRIu32 ": take core %" PRIu64
           " out of the mask, or plan a larger rack\n",
           set->models[task].name, core, set->cores - 1, core);
}

static void print_refusal(const struct set *set, aurhennig_reply reply)
{
    if (reply.number == AURHENNIG_OVERLOADED)
        print_overload(set, reply.first, reply.second);
    else if (reply.number == AURHENNIG_MISSING_CORE)
        print_missing_core(set, reply.first, reply.second);
    else if (reply.number == AURHENNIG_EMPTY_MASK || reply.number == AURHENNIG_BUDGET)
        printf("  refused: %s: %s\n", set->models[reply.first].name, advice[reply.number]);
    else if (reply.number == AURHENNIG_JOB_LIST || reply.number == AURHENNIG_NO_UNITS)
        printf("  refused: job %" PRIu64 ": %s\n", reply.first, advice[reply.number]);
    else
        printf("  refused: %s\n", advice[reply.number]);
}

/* Walks two jobs of a model, and prints each finish beside release + period + frame. This bound holds where releases lie a period apart or more, and
 * units x frame is at most budget x period: here 6 x 6 and 4 x 9. */
static int walk(const struct set *set, const uint32_t *table, size_t table_len, uint32_t task)
{
    const uint64_t period = 9, releases[] = {4, 13};
    const uint32_t units[] = {6, 6};
    uint64_t finishes[COUNT(releases)];
    aurhennig_reply reply = aurhennig_walk(set->frame, set->cores, table, table_len, task, releases, COUNT(releases), units, COUNT(units), finishes,
                                           COUNT(finishes));
    int good = reply.number == AURHENNIG_ACCEPTED;
    if (!good)
        print_refusal(set, reply);
    for (size_t k = 0; k < reply.count; k++) {
        uint64_t bound = releases[k] + period + set->frame;
        printf("  %s: %" PRIu32 " units released at %" PRIu64 " are finished at %" PRIu64 ", by %" PRIu64 " + %" PRIu64 " + %" PRIu32 " = %" PRIu64 "\n",
               set->models[task].name, units[k], releases[k], finishes[k], releases[k], period, set->frame, bound);
        good = good && finishes[k] <= bound;
    }
    return good;
}

/* A table that was kept is checked before it is used, as it may be damaged. The check does not know the set: use a table for the set it was planned for. */
static int use(const struct set *set, const uint32_t *table, size_t table_len)
{
    aurhennig_reply checked = aurhennig_check_table(set->frame, set->cores, table, table_len);
    aurhennig_reply moves = aurhennig_count_moves(set->frame, set->cores, table, table_len);
    if (checked.number != AURHENNIG_ACCEPTED) {
        print_refusal(set, checked);
        return 0;
    }
    print_table(set, table, table_len);
    printf("  a frame table; moves from core to core in a frame: %" PRIu64 "\n", moves.count);
    return walk(set, table, table_len, 0) && moves.number == AURHENNIG_ACCEPTED;
}

/* Plans a set and prints the answer; 1 if its number is the expected one and a table that it gave serves. */
static int run(const struct set *set, uint64_t expected)
{
    uint32_t table[AURHENNIG_TABLE_LEN];
    aurhennig_reply reply = plan(set, table, COUNT(table));
    int good = reply.number == expected;
    printf("%zu models on %" PRIu32 " cores, a frame of %" PRIu32 " units\n", set->count, set->cores, set->frame);
    if (reply.number == AURHENNIG_ACCEPTED)
        return use(set, table, AURHENNIG_PIECE_LEN * reply.count) && good;
    print_refusal(set, reply);
    return good;
}

int main(void)
{
    static const struct model sky[] = {{"stars", 4, CORE(0) | CORE(1)}, {"noise", 3, CORE(0)}, {"optics", 5, CORE(1)}};
    static const struct model crowded[] = {{"tracker", 8, CORE(0)}, {"camera", 8, CORE(0)}, {"noise", 3, CORE(1)}};
    static const struct model large[] = {{"stars", 4, CORE(0) | CORE(1)}, {"relay", 3, CORE(1) | CORE(5)}};
    const struct set fits = {6, 2, sky, COUNT(sky)}, overloaded = {10, 2, crowded, COUNT(crowded)}, larger = {10, 2, large, COUNT(large)};
    int good = run(&fits, AURHENNIG_ACCEPTED);
    good = run(&overloaded, AURHENNIG_OVERLOADED) && good;
    good = run(&larger, AURHENNIG_MISSING_CORE) && good;
    return good ? 0 : 1;
}
