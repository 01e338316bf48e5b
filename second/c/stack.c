/* Measures how much stack each call touches: it is made on a painted stack, over random inputs, and the lowest byte that lost its paint counts.
 * It may not lie deeper than scripts/stack finds in the machine code.
 *
 * use: stack CALLS SEED <NUMBERS    NUMBERS are the lines of scripts/stack
 *
 * To be linked with -z now: else the first memset goes through the dynamic linker, on the same stack. */
#include <stdio.h>
#include <stdlib.h>
#include <string.h>
#include <ucontext.h>

#include "aurhennig.h"
#include "inputs.h"
#include "random.h"

enum { ROOM = 16384 };

static unsigned char room[ROOM];
static ucontext_t here, there;
static set_input set;
static table_input table;
static job_input jobs;
static uint8_t line[LINE_ROOM], output[AURHENNIG_LEAST_OUTPUT];
static size_t line_len;
static uint32_t planned[4 * MOST_PIECES + 20];
static uint64_t finishes[JOB_ROOM];

typedef aurhennig_reply plan_call(uint32_t, uint32_t, const uint32_t *, size_t, const uint16_t *, size_t, uint32_t *, size_t);
typedef aurhennig_reply table_call(uint32_t, uint32_t, const uint32_t *, size_t);
typedef aurhennig_reply walk_call(uint32_t, uint32_t, const uint32_t *, size_t, uint32_t, const uint64_t *, size_t, const uint32_t *, size_t,
                                  uint64_t *, size_t);
typedef size_t line_call(const uint8_t *, size_t, uint8_t *, size_t);

/* Called once in the calls' place, these find where the stack pointer stands at the call instruction: a frame begins with the frame pointer of the
 * caller, and above that is the return address. */
#pragma GCC diagnostic ignored "-Wunused-parameter"
static unsigned char *caller;
static const aurhennig_reply nothing;

static void mark(unsigned char *frame)
{
    caller = frame + 2 * sizeof(void *);
}

static aurhennig_reply mark_plan(uint32_t f, uint32_t m, const uint32_t *b, size_t bs, const uint16_t *ms, size_t mss, uint32_t *t, size_t ts)
{
    mark(__builtin_frame_address(0));
    return nothing;
}

static aurhennig_reply mark_table(uint32_t f, uint32_t m, const uint32_t *t, size_t ts)
{
    mark(__builtin_frame_address(0));
    return nothing;
}

static aurhennig_reply mark_walk(uint32_t f, uint32_t m, const uint32_t *t, size_t ts, uint32_t task, const uint64_t *r, size_t rs,
                                 const uint32_t *u, size_t us, uint64_t *e, size_t es)
{
    mark(__builtin_frame_address(0));
    return nothing;
}

static size_t mark_line(const uint8_t *i, size_t is, uint8_t *o, size_t os)
{
    mark(__builtin_frame_address(0));
    return 0;
}

/* Volatile, so that the marks and the calls are called from the very same place. */
static plan_call *volatile plan_now = mark_plan;
static table_call *volatile check_now = mark_table, *volatile moves_now = mark_table;
static walk_call *volatile walk_now = mark_walk;
static line_call *volatile line_now = mark_line;
static volatile aurhennig_reply reply;
static volatile size_t wrote;

static void make_plan(void)
{
    reply = plan_now(set.frame, set.cores, set.budgets, set.budget_count, set.masks, set.mask_count, planned, set.table_len);
}

static void make_check(void)
{
    reply = check_now(table.frame, table.cores, table.numbers, table.len);
}

static void make_moves(void)
{
    reply = moves_now(table.frame, table.cores, table.numbers, table.len);
}

static void make_walk(void)
{
    reply = walk_now(table.frame, table.cores, table.numbers, table.len, jobs.task, jobs.releases, jobs.release_count, jobs.units, jobs.unit_count,
                     finishes, jobs.finish_count);
}

static void make_line(void)
{
    wrote = line_now(line, line_len, output, sizeof output);
}

static void pick_inputs(void)
{
    if (one_in(4))
        crowded_set(&set);
    else
        random_set(&set);
    line_len = has_line(&set) ? set_line(&set, line) : 0;
    if (line_len > 0 && one_in(8))
        line_len = damage_line(line, line_len);
    random_table(&table);
    random_jobs(&jobs, &table);
}

/* Runs a function on the painted stack; hands back how far below `caller` it wrote. */
static size_t touched(void (*make)(void), unsigned char paint)
{
    memset(room, paint, ROOM);
    getcontext(&there);
    there.uc_stack.ss_sp = room;
    there.uc_stack.ss_size = ROOM;
    there.uc_link = &here;
    makecontext(&there, make, 0);
    swapcontext(&here, &there);
    const unsigned char *lowest = room;
    while (*lowest == paint)
        lowest++;
    return lowest < caller ? (size_t)(caller - lowest) : 0;
}

typedef struct {
    const char *name;
    void (*make)(void);
    unsigned char *caller;
    size_t found;
} measured;

static measured calls[] = {
    {"aurhennig_check_table", make_check, NULL, 0}, {"aurhennig_count_moves", make_moves, NULL, 0}, {"aurhennig_plan", make_plan, NULL, 0},
    {"aurhennig_plan_line", make_line, NULL, 0},    {"aurhennig_walk", make_walk, NULL, 0},
};
enum { KINDS = sizeof calls / sizeof *calls };

static void mark_all(void)
{
    for (int k = 0; k < KINDS; k++) {
        touched(calls[k].make, 0);
        calls[k].caller = caller;
    }
    plan_now = aurhennig_plan, check_now = aurhennig_check_table, moves_now = aurhennig_count_moves, walk_now = aurhennig_walk;
    line_now = aurhennig_plan_line;
}

static void measure(uint64_t count)
{
    for (uint64_t call = 0; call < count; call++) {
        measured *now = &calls[call % KINDS];
        pick_inputs();
        caller = now->caller;
        size_t found = touched(now->make, call / KINDS % 2 ? 0x5a : 0xa5);
        if (found > now->found)
            now->found = found;
    }
}

/* Whether a call kept within its line of scripts/stack. */
static int within(const measured *call)
{
    char name[64];
    size_t most;
    if (scanf("%63s %zu", name, &most) != 2 || strcmp(name, call->name) != 0) {
        fprintf(stderr, "stack: standard input has no line for %s: give it the lines of scripts/stack\n", call->name);
        exit(2);
    }
    printf("%s touched %zu of %zu bytes of stack\n", name, call->found, most);
    return call->found <= most;
}

int main(int words, char **word)
{
    if (words != 3) {
        fprintf(stderr, "use: stack CALLS SEED <NUMBERS\n");
        return 2;
    }
    start_random(strtoull(word[2], NULL, 10));
    mark_all();
    measure(strtoull(word[1], NULL, 10));
    int all = 1;
    for (int k = 0; k < KINDS; k++)
        all &= within(&calls[k]);
    return all ? 0 : 1;
}
