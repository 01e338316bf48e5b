/* Aurhennig: frame tables for racks of up to sixteen cores. This header is the manual of its five C calls.
 *
 *   aurhennig_plan          plans a set of tasks: a frame table, or a refusal by number
 *   aurhennig_check_table   tells whether a list of numbers is a frame table
 *   aurhennig_count_moves   counts a table's moves from core to core
 *   aurhennig_walk          tells when the jobs of one task finish under a table
 *   aurhennig_plan_line     plans a set that is written on a line of hexadecimal, and writes the answer on a line
 *
 * `make install PREFIX=..` installs what `cc app.c $(pkg-config --cflags --libs aurhennig)` links; `make library` alone writes
 * target/staticlib/libaurhennig.a. examples/executive.c and examples/executive.py are made to start from.
 *
 *
 * Words
 *
 * A frame is a run of `frame` units of time, and every frame is the same; the first begins at instant 0. Tasks and cores are numbered from 0. Task i
 * has a budget, budgets[i], the units that it gets in each frame, and a mask, masks[i], the cores on which it may run: bit j for core j.
 *
 * A table is one flat list of 32-bit numbers, four a piece: core, task, start, length. On that core the task runs from start up to, and not
 * including, start + length.
 *
 *
 * What holds for every call
 *
 * What the caller sees to: no pointer is null, also where its length is 0; each points to as many elements as its length says, aligned as C aligns
 * their type; the arrays of one call do not overlap one another, and nothing else writes to them while the call runs. There is no other condition:
 * any numbers may stand in the arrays and be handed over beside them, and what is out of its limits is refused by number.
 *
 * What the call sees to: an array that is lent as const is only read. A refusal keeps every word of the other arrays; aurhennig_plan_line alone
 * writes its refusals, as lines. The same arguments always get the same answer.
 *
 * Lengths, named .._len, count elements and not bytes. Sums are taken in full and never wrap.
 *
 * The library is for x86-64 with the System V calling convention. It needs memcpy and memset of the C library and nothing else. It allocates no
 * memory and keeps no state from one call to the next, so it may be called from several threads at once on different buffers.
 */
#ifndef AURHENNIG_H
#define AURHENNIG_H

#include <stddef.h>
#include <stdint.h>

#ifdef __cplusplus
extern "C" {
#endif

/* Sizes. */
#define AURHENNIG_LONGEST_FRAME 1000000                   /* frame: 1 to this */
#define AURHENNIG_MOST_CORES 16                           /* cores: 1 to this */
#define AURHENNIG_MOST_TASKS 64                           /* tasks: 0 to this */
#define AURHENNIG_PIECE_LEN 4                             /* numbers a piece: core, task, start, length */
#define AURHENNIG_MOST_PIECES 95                          /* pieces of a table: 0 to this, which is 64 + 2 * 16 - 1 */
#define AURHENNIG_TABLE_LEN 380                           /* room for 95 pieces: a table of this length is enough for every set */
#define AURHENNIG_MOST_JOBS 4096                          /* jobs of one walk: 0 to this */
#define AURHENNIG_LATEST_RELEASE UINT64_C(1000000000000)  /* release of a job: 0 to this */
#define AURHENNIG_MOST_UNITS 1000000                      /* units of a job: 0 to this */
#define AURHENNIG_LONGEST_LINE 3072                       /* digits of a line: 12 to this */
#define AURHENNIG_LEAST_OUTPUT 1906                       /* output lent to aurhennig_plan_line, in bytes: at least this, the line of 95 pieces */

/* Stack: the exact number of bytes that each call needs at most, its return address included, whatever it is handed. What memcpy and memset of the C
 * library take for themselves comes on top, and where a program binds them only when they are first called, what the loader takes to find them: link
 * such a program with -Wl,-z,now. The shared library binds them when it is loaded. */
#define AURHENNIG_STACK_PLAN 5304
#define AURHENNIG_STACK_CHECK_TABLE 88
#define AURHENNIG_STACK_COUNT_MOVES 112
#define AURHENNIG_STACK_WALK 920
#define AURHENNIG_STACK_PLAN_LINE 8472

/* The numbers: name, decimal and, as on a line, hexadecimal. `first` and `second` are what the reply carries, 0 where the row says nothing. The calls
 * that give the number: P aurhennig_plan, C aurhennig_check_table, M aurhennig_count_moves, W aurhennig_walk, L aurhennig_plan_line.
 *
 *                                       hex  calls      first   second   given exactly when */
#define AURHENNIG_ACCEPTED        0  /*  00   P C M W L                   every test of the call passes */
#define AURHENNIG_FRAME_LENGTH    1  /*  01   P C M W L                   the frame is 0 or above 1,000,000 */
#define AURHENNIG_CORE_COUNT      2  /*  02   P C M W L                   the core count is 0 or above 16 */
#define AURHENNIG_TASK_COUNT      3  /*  03   P . . . L                   there are more than 64 tasks, or (P alone) budgets and masks differ in number */
#define AURHENNIG_EMPTY_MASK      4  /*  04   P . . . L  task             some mask is empty; the lowest such task */
#define AURHENNIG_BUDGET          5  /*  05   P . . . L  task             some budget is above the frame; the lowest such task */
#define AURHENNIG_SHORT_TABLE     6  /*  06   P . . . L                   the lent table holds fewer than n + 2 * cores - 1 whole pieces, n being the task
                                      *                                   count; L: the output is below 1,906 bytes, which is told by handing back 0 */
#define AURHENNIG_OVERLOADED      7  /*  07   P . . . L  group   cores    the tasks of a group do not fit on the cores of their masks (see aurhennig_plan):
                                      *                                   the group, bit i for task i, and its cores, bit j for core j */
#define AURHENNIG_NOT_TABLE       8  /*  08   . C M W .                   the list is not a frame table (see aurhennig_check_table) */
#define AURHENNIG_JOB_LIST        9  /*  09   . . . W .  job              releases and units differ in number, or there are more than 4,096 jobs: job 0;
                                      *                                   otherwise the first job with a release below the one before it, a release above
                                      *                                   1,000,000,000,000 or units above 1,000,000 */
#define AURHENNIG_NO_UNITS       10  /*  0a   . . . W .  job              the walked task has no units in the table and a job asks units; the first such job */
#define AURHENNIG_SHORT_FINISHES 11  /*  0b   . . . W .                   the lent finish list is shorter than the job list */
#define AURHENNIG_BAD_LINE       12  /*  0c   . . . . L                   the line is not well written (see aurhennig_plan_line) */
#define AURHENNIG_MISSING_CORE   13  /*  0d   P . . . L  task    core     some mask has a bit at or above the core count; the lowest such task, and the
                                      *                                   lowest such core of its mask */

/* What a call on arrays hands back. */
typedef struct {
    uint64_t number; /* AURHENNIG_ACCEPTED, or the number of the refusal */
    uint64_t first;  /* the values that the number carries, by the table above; 0 where there are none */
    uint64_t second;
    uint64_t count; /* accepted: the pieces written (plan), the moves, the finishes written (walk), 0 for the check; beside every refusal 0 */
} aurhennig_reply;

/* Plans the set of n = budgets_len tasks on `cores` cores.
 *
 * Reads: budgets and masks, one of each for every task. Lent: a table with room for n + 2 * cores - 1 pieces, that is 4 * (n + 2 * cores - 1)
 * numbers; AURHENNIG_TABLE_LEN is always enough.
 *
 * Accepted: the front of `table` holds `count` pieces, at most n + 2 * cores - 1 of them, by core and then by start; the places from
 * table[4 * count] on keep what they held. In every frame each task gets exactly its budget, on cores of its mask only, and never runs on two cores
 * at once. Hand on the first 4 * count numbers alone, with the same frame and cores.
 *
 * Tests, in this order, each over all tasks before the next: 1, 2, 3, 4, 13, 5, 6, 7. A refusal leaves `table` as it was.
 *
 * Overload (7): the excess of a group of tasks is the sum of its budgets, less frame * the number of cores in the union of its masks. A set that
 * passes the other tests is overloaded exactly if some group has an excess above 0, and that is exactly if no table exists for it. Carried is the
 * smallest among the groups of greatest excess; there is one such group, and it holds no task of budget 0. To mend the set, take at least the excess
 * off the group's budgets or widen a mask in it to other cores, and plan again: a smaller group may be left.
 */
aurhennig_reply aurhennig_plan(uint32_t frame, uint32_t cores, const uint32_t *budgets, size_t budgets_len, const uint16_t *masks, size_t masks_len,
                               uint32_t *table, size_t table_len);

/* Tells whether the table_len numbers at `table` are a frame table for `frame` and `cores`.
 *
 * Reads: the table. Writes nothing. `count` is 0.
 *
 * A frame table has at most 95 pieces; each has a core below `cores`, a task below 64, a length of at least 1, and start + length at most `frame`; the
 * pieces stand in order of core and then of start; no two pieces of one core overlap, and no two pieces of one task, on any cores. The empty list is a
 * frame table. A list that ends inside a piece, its length no multiple of 4, is none.
 *
 * The check knows no budgets and no masks: it tells whether the numbers are a frame table, not whose. To trust a table for a set, plan the set.
 *
 * Tests, in this order: 1, 2, 8.
 */
aurhennig_reply aurhennig_check_table(uint32_t frame, uint32_t cores, const uint32_t *table, size_t table_len);

/* Counts the moves of a table: for each task, its pieces are listed by start within the frame, and a piece on another core than the piece before it is
 * a move; `count` is the sum over all tasks. The end of the frame is not compared with the beginning of the next.
 *
 * Reads: the table. Writes nothing.
 *
 * Tests, in this order: 1, 2, 8.
 */
aurhennig_reply aurhennig_count_moves(uint32_t frame, uint32_t cores, const uint32_t *table, size_t table_len);

/* Tells when each job of the task `task` finishes if the table repeats from instant 0.
 *
 * Reads: the table, and for job k its release releases[k] and its units units[k]; releases do not descend. Lent: a place for each job in `finishes`.
 *
 * Accepted: finishes[k] is the finish of job k, for each of the `count` = releases_len jobs; the places beyond keep what they held. A job begins at its
 * release, or at the finish of the job before it if that is later. It finishes at the first instant, not before its begin, by which the task has had
 * the job's units since the begin, on whatever cores. A job of 0 units finishes where it begins.
 *
 * Let the task have b units in a frame, which for a planned table is its budget; let releases lie at least T apart and no job ask more than c units.
 * If c * frame <= b * T, every job finishes by its release + T + frame, and by its release + T where `frame` divides T.
 *
 * Tests, in this order: 1, 2, 8, 9, 10, 11. A refusal leaves `finishes` as it was. A task at or above 64 has no units in any frame table.
 */
aurhennig_reply aurhennig_walk(uint32_t frame, uint32_t cores, const uint32_t *table, size_t table_len, uint32_t task, const uint64_t *releases,
                               size_t releases_len, const uint32_t *units, size_t units_len, uint64_t *finishes, size_t finishes_len);

/* Answers the line of input_len bytes at `input`, and writes the answer line at the front of `output`. Both are lowercase hexadecimal, big-endian,
 * without spaces and without the line feed.
 *
 * In: the frame (4 bytes, 8 digits), the core count (1 byte), the task count n (1 byte), then for each task its budget (4 bytes) and its mask (2
 * bytes): 12 + 12 * n digits.
 *
 * Out: the answer's number (1 byte, 2 digits), and then
 *
 *   00        the piece count (2 bytes), and for each piece its core (1), task (1), start (4) and length (4)
 *   04, 05    the task (1)
 *   07        the group (8, bit i for task i) and its cores (2, bit j for core j)
 *   0d        the task (1) and the core (1)
 *   others    nothing more
 *
 * A line is not well written (0c) if it has a byte other than `0` to `9` and `a` to `f`, an odd number of digits, fewer than 12 digits or more than
 * 3,072, or a length other than 12 + 12 * n digits. The empty line is such a line.
 *
 * Hands back how many bytes it wrote; output[that ..] keeps what it held. Where output_len is below AURHENNIG_LEAST_OUTPUT it hands back 0 and writes
 * nothing, whatever the line is: this is its 6, and no line says 06. Any other call hands back at least 2: every other refusal has its line. Any bytes
 * may stand at `input`, and any number of them.
 *
 * Tests, in this order: 6 by output_len, 12, then 1, 2, 3, 4, 13, 5, 7; the set is planned as by aurhennig_plan.
 *
 * Examples: 000000060203000000040003000000030001000000050002
 *        -> 0000050000000000000000000300010000000300000003010200000000000000030100000000030000000101020000000400000002
 *           0000000a0203000000080001000000080001000000030002 -> 0700000000000000030001
 *           0000000a0101000000000001 -> 000000
 *           0000000a0202000000010001000000010004 -> 0d0102
 */
size_t aurhennig_plan_line(const uint8_t *input, size_t input_len, uint8_t *output, size_t output_len);

#ifdef __cplusplus
}
#endif

#endif
