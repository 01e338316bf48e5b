/* What calls are handed, good and bad. Each list has more room than any good input needs, so that inputs that are too long fit too. */
#ifndef INPUTS_H
#define INPUTS_H

#include <stddef.h>
#include <stdint.h>

/* The limits of document 01. */
enum { MOST_FRAME = 1000000, MOST_CORES = 16, MOST_TASKS = 64, MOST_PIECES = 95, MOST_JOBS = 4096, MOST_UNITS = 1000000, MOST_DIGITS = 3072 };
#define MOST_RELEASE UINT64_C(1000000000000)

enum { SET_ROOM = 300, TABLE_ROOM = 4 * 205, JOB_ROOM = 4100 };

typedef struct {
    uint32_t frame, cores;
    size_t budget_count, mask_count;
    uint32_t budgets[SET_ROOM];
    uint16_t masks[SET_ROOM];
    size_t table_len; /* how many numbers are lent for the table */
} set_input;

typedef struct {
    uint32_t frame, cores;
    size_t len; /* numbers, four a piece */
    uint32_t numbers[TABLE_ROOM];
} table_input;

typedef struct {
    uint32_t task;
    size_t release_count, unit_count, finish_count;
    uint64_t releases[JOB_ROOM];
    uint32_t units[JOB_ROOM];
} job_input;

/* n + 2m - 1, the pieces for which a table must have room, of a set whose counts are within the limits. */
size_t pieces_needed(const set_input *set);

/* A set that passes all tests but perhaps the last: it may be an overload. */
void good_set(set_input *set);

/* As many tasks as are allowed on as many cores, with any masks and budgets that fill the cores. */
void crowded_set(set_input *set);

/* A set of which about a third is spoiled. */
void random_set(set_input *set);

/* A table, often one that was planned; about half are spoiled. */
void random_table(table_input *table);

/* Jobs over a table, of which about a third is spoiled. */
void random_jobs(job_input *jobs, const table_input *table);

/* Lines have room for LINE_ROOM bytes, more than a line that is well written can have. */
enum { LINE_ROOM = MOST_DIGITS + 5100 };

/* Whether a line can hold the set: as many masks as budgets, and bytes for their number and for the cores. */
int has_line(const set_input *set);

/* Writes the line of a set that has one, and hands back its length. */
size_t set_line(const set_input *set, uint8_t *line);

/* Reads a line, which is lost, into a set with a table of 95 pieces; 0 if it is not well written. */
int read_set(uint8_t *line, size_t digits, set_input *set);

/* Damages a line of this length that has a byte, or makes one up; hands back its new length. */
size_t damage_line(uint8_t *line, size_t len);

#endif
