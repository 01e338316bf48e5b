/* Lines of sets, and damage to them: most of it makes a line not well written. */
#include <string.h>

#include "hex.h"
#include "inputs.h"
#include "random.h"

int has_line(const set_input *set)
{
    return set->budget_count == set->mask_count && set->budget_count < 256 && set->cores < 256;
}

size_t set_line(const set_input *set, uint8_t *line)
{
    uint8_t *end = put_field(line, set->frame, 4);
    end = put_field(end, set->cores, 1);
    end = put_field(end, set->budget_count, 1);
    for (size_t task = 0; task < set->budget_count; task++) {
        end = put_field(end, set->budgets[task], 4);
        end = put_field(end, set->masks[task], 2);
    }
    return (size_t)(end - line);
}

int read_set(uint8_t *line, size_t digits, set_input *set)
{
    if (digits < 12 || digits > MOST_DIGITS || !decode(line, digits))
        return 0;
    fields from = {line, digits / 2};
    set->frame = (uint32_t)next_field(&from, 4);
    set->cores = (uint32_t)next_field(&from, 1);
    set->budget_count = set->mask_count = next_field(&from, 1);
    set->table_len = 4 * MOST_PIECES;
    if (from.left != 6 * set->budget_count)
        return 0;
    for (size_t task = 0; task < set->budget_count; task++) {
        set->budgets[task] = (uint32_t)next_field(&from, 4);
        set->masks[task] = (uint16_t)next_field(&from, 2);
    }
    return 1;
}

/* Any digits, and now and then any bytes. */
static size_t made_up_line(uint8_t *line)
{
    size_t len = below(100), bytes = one_in(3);
    for (size_t at = 0; at < len; at++)
        line[at] = bytes ? (uint8_t)random_word() : (uint8_t)"0123456789abcdef"[below(16)];
    return len;
}

size_t damage_line(uint8_t *line, size_t len)
{
    static const size_t above[] = {1, 2, 12, 5000};
    size_t longer;
    switch (below(10)) {
    case 0:
        line[below(len)] = (uint8_t)"/:`g@AFG \r\n"[below(12)];
        return len;
    case 1:
        line[below(len)] = (uint8_t)random_word();
        return len;
    case 2:
        return len - 1;
    case 3:
        return below(12);
    case 4:
        return 2 * below(len / 2);
    case 5:
        return 0;
    case 6:
        return made_up_line(line);
    case 7:
        line[below(12)] = (uint8_t)"0123456789abcdef"[below(16)];
        return len;
    case 8:
        longer = MOST_DIGITS + above[below(4)];
        memset(line + len, '0', longer - len);
        return longer;
    default:
        longer = len + between(1, 12);
        memset(line + len, '0', longer - len);
        return longer;
    }
}
