/* The lines of the programs `plan` and `calls`, answered by the C calls on plain arrays: what the judge judges of a program, it can judge of them.
 *
 * use: lines plan|calls    (lines on standard input, answers on standard output) */
#define _POSIX_C_SOURCE 200809L /* getline */
#include <stdio.h>
#include <stdlib.h>
#include <string.h>

#include "answer_line.h"
#include "hex.h"
#include "inputs.h"

enum { CALL_DIGITS = 99002, CALL_WORDS = CALL_DIGITS / 8, FINISH_ROOM = 65535, ANSWER_ROOM = 16 * FINISH_ROOM + 2 };

static uint32_t words[CALL_WORDS], units[CALL_WORDS];
static uint64_t releases[CALL_WORDS / 2], finishes[FINISH_ROOM];
static uint8_t answer[ANSWER_ROOM + 1];

/* "A line is not well written" is said here, by 12 and no more: these calls see no lines. */
static uint8_t *bad_line(void)
{
    return put_field(answer, 12, 1);
}

static void too_many(const char *what)
{
    fprintf(stderr, "lines: a call hands back more %s than were lent\n", what);
    exit(1);
}

static void read_words(fields *from, uint32_t *to, size_t count)
{
    for (size_t k = 0; k < count; k++)
        to[k] = (uint32_t)next_field(from, 4);
}

static uint8_t *answer_plan(uint8_t *line, size_t digits)
{
    static set_input set;
    static uint32_t table[4 * MOST_PIECES];
    if (!read_set(line, digits, &set))
        return bad_line();
    aurhennig_reply reply =
        aurhennig_plan(set.frame, set.cores, set.budgets, set.budget_count, set.masks, set.mask_count, table, set.table_len);
    if (reply.count > MOST_PIECES)
        too_many("pieces");
    return put_plan_answer(answer, reply, table);
}

/* The table check, which shows no count, or the move count. */
static uint8_t *answer_table(fields *from, int counts)
{
    uint32_t frame = (uint32_t)next_field(from, 4), cores = (uint32_t)next_field(from, 4);
    if (from->left % 4 != 0)
        return bad_line();
    size_t len = from->left / 4;
    read_words(from, words, len);
    aurhennig_reply reply = counts ? aurhennig_count_moves(frame, cores, words, len) : aurhennig_check_table(frame, cores, words, len);
    uint8_t *end = put_field(answer, reply.number, 1);
    return counts && reply.number == 0 ? put_field(end, reply.count, 4) : end;
}

static uint8_t *put_walk_answer(aurhennig_reply reply)
{
    uint8_t *end = put_field(answer, reply.number, 1);
    if (reply.number == 9 || reply.number == 10)
        return put_field(end, reply.first, 4);
    for (size_t job = 0; job < reply.count; job++)
        end = put_field(end, finishes[job], 8);
    return end;
}

static uint8_t *answer_walk(fields *from)
{
    if (from->left < 20)
        return bad_line();
    uint32_t frame = (uint32_t)next_field(from, 4), cores = (uint32_t)next_field(from, 4), task = (uint32_t)next_field(from, 4);
    size_t len = next_field(from, 2), release_count = next_field(from, 2), unit_count = next_field(from, 2), room = next_field(from, 2);
    if (from->left != 4 * len + 8 * release_count + 4 * unit_count)
        return bad_line();
    read_words(from, words, len);
    for (size_t job = 0; job < release_count; job++)
        releases[job] = next_field(from, 8);
    read_words(from, units, unit_count);
    aurhennig_reply reply = aurhennig_walk(frame, cores, words, len, task, releases, release_count, units, unit_count, finishes, room);
    if (reply.count > room)
        too_many("finishes");
    return put_walk_answer(reply);
}

static uint8_t *answer_call(uint8_t *line, size_t digits)
{
    if (digits < 18 || digits > CALL_DIGITS || !decode(line, digits))
        return bad_line();
    fields from = {line, digits / 2};
    switch (next_field(&from, 1)) {
    case 1:
        return answer_table(&from, 0);
    case 2:
        return answer_table(&from, 1);
    case 3:
        return answer_walk(&from);
    default:
        return bad_line();
    }
}

int main(int count, char **word)
{
    int plans = count == 2 && strcmp(word[1], "plan") == 0;
    if (!plans && (count != 2 || strcmp(word[1], "calls") != 0)) {
        fprintf(stderr, "use: lines plan|calls\n");
        return 2;
    }
    char *line = NULL;
    size_t room = 0;
    ssize_t len;
    while ((len = getline(&line, &room, stdin)) > 0) {
        size_t digits = (size_t)len - (line[len - 1] == '\n');
        uint8_t *end = plans ? answer_plan((uint8_t *)line, digits) : answer_call((uint8_t *)line, digits);
        *end++ = '\n';
        fwrite(answer, 1, (size_t)(end - answer), stdout);
    }
    free(line);
    if (ferror(stdin) || fflush(stdout) != 0) {
        fprintf(stderr, "lines: reading or writing failed\n");
        return 2;
    }
    return 0;
}
