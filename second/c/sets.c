/* Random sets, from empty to full. */
#include <string.h>

#include "inputs.h"
#include "random.h"

size_t pieces_needed(const set_input *set)
{
    return set->budget_count + 2 * (size_t)set->cores - 1;
}

static void pick_sizes(set_input *set)
{
    switch (below(6)) {
    case 0:
    case 1:
        set->frame = (uint32_t)between(1, 12), set->cores = (uint32_t)between(1, 4), set->budget_count = below(9);
        break;
    case 2:
        set->frame = (uint32_t)between(1, 1000), set->cores = (uint32_t)between(1, 8), set->budget_count = below(21);
        break;
    case 3:
        set->frame = (uint32_t)between(1, 40), set->cores = MOST_CORES, set->budget_count = MOST_TASKS;
        break;
    case 4:
        set->frame = MOST_FRAME, set->cores = MOST_CORES, set->budget_count = MOST_TASKS;
        break;
    default:
        set->frame = (uint32_t)between(1, MOST_FRAME), set->cores = (uint32_t)between(1, MOST_CORES);
        set->budget_count = between(0, MOST_TASKS);
    }
    set->mask_count = set->budget_count;
}

/* Kinds of masks: any, one core, all cores, nested. */
static uint16_t random_mask(uint32_t cores, uint64_t kind)
{
    uint32_t all = (UINT32_C(1) << cores) - 1;
    uint32_t one = UINT32_C(1) << below(cores);
    if (kind == 0)
        return (uint16_t)((random_word() & all) | one);
    if (kind == 1)
        return (uint16_t)one;
    if (kind == 2)
        return (uint16_t)all;
    uint32_t width = UINT32_C(1) << below(5), first = (uint32_t)below(cores) / width * width;
    return (uint16_t)(((UINT32_C(1) << width) - 1) << first & all);
}

static void pick_masks(set_input *set, uint64_t kind)
{
    for (size_t task = 0; task < set->mask_count; task++)
        set->masks[task] = random_mask(set->cores, kind);
}

/* Hands a core out to its tasks, so that an allocation is known to exist and often fills the core. */
static void fill_core(set_input *set, uint32_t core)
{
    size_t tasks = set->budget_count, first = tasks ? below(tasks) : 0;
    uint32_t left = set->frame;
    for (size_t k = 0; k < tasks; k++) {
        size_t task = (first + k) % tasks;
        if (!(set->masks[task] >> core & 1))
            continue;
        uint32_t lacks = set->frame - set->budgets[task];
        uint32_t most = left < lacks ? left : lacks;
        uint32_t given = one_in(6) ? most : (uint32_t)below(most / 3 + 1);
        set->budgets[task] += given;
        left -= given;
    }
}

static void pick_budgets(set_input *set, int filled)
{
    uint64_t most = set->frame;
    if (!filled && set->budget_count > set->cores && !one_in(4))
        most = most * set->cores / set->budget_count;
    for (size_t task = 0; task < set->budget_count; task++)
        set->budgets[task] = filled ? 0 : (uint32_t)between(0, most);
    for (uint32_t core = 0; filled && core < set->cores; core++)
        fill_core(set, core);
    if (filled && set->budget_count && one_in(3)) {
        uint32_t *budget = &set->budgets[below(set->budget_count)];
        *budget = one_in(2) ? set->frame : *budget + (*budget < set->frame);
    }
}

static void pick_room(set_input *set)
{
    size_t least = 4 * pieces_needed(set);
    set->table_len = one_in(3) ? least : one_in(2) ? least + below(9) : 4 * MOST_PIECES + below(20);
}

void good_set(set_input *set)
{
    pick_sizes(set);
    pick_masks(set, below(4));
    pick_budgets(set, !one_in(3));
    pick_room(set);
}

void crowded_set(set_input *set)
{
    set->frame = MOST_FRAME, set->cores = MOST_CORES, set->budget_count = set->mask_count = MOST_TASKS;
    pick_masks(set, 0);
    pick_budgets(set, 1);
    set->table_len = 4 * MOST_PIECES;
}

/* More tasks than are allowed, or not as many masks as budgets. */
static void spoil_counts(set_input *set)
{
    static const size_t many[] = {65, 66, 255, SET_ROOM};
    size_t count = many[below(4)];
    for (size_t task = set->budget_count; task < count; task++)
        set->budgets[task] = (uint32_t)below(2), set->masks[task] = 1;
    set->budget_count = one_in(2) ? count : set->budget_count;
    set->mask_count = one_in(2) ? set->budget_count : one_in(2) ? set->budget_count + 1 : below(count);
    if (set->mask_count > SET_ROOM)
        set->mask_count = SET_ROOM;
}

/* An empty mask, or one with missing cores: the lowest, the highest, any, or all and no other. Where none is missing it may stay. */
static uint16_t bad_mask(uint16_t mask, uint32_t cores)
{
    uint32_t missing = cores < MOST_CORES ? UINT32_C(0xffff) << cores & 0xffff : 0;
    uint32_t lowest = missing & (~missing + 1), highest = missing & 0x8000, any = missing & (uint32_t)random_word();
    const uint32_t masks[] = {0, 0, mask | lowest, mask | highest, mask | any, missing};
    return (uint16_t)masks[below(6)];
}

/* Up to three masks, so that empty ones and missing cores stand side by side, in either order of tasks. */
static void spoil_masks(set_input *set)
{
    for (uint64_t faults = between(1, 3); faults > 0; faults--) {
        uint16_t *mask = &set->masks[below(set->budget_count)];
        *mask = bad_mask(*mask, set->cores);
    }
}

static void spoil_tasks(set_input *set)
{
    switch (below(4)) {
    case 0:
    case 1:
        spoil_masks(set);
        break;
    case 2:
        set->budgets[below(set->budget_count)] = one_in(2) ? set->frame + 1 : UINT32_MAX;
        break;
    default:
        memset(set->budgets, 0xff, set->budget_count * sizeof *set->budgets);
    }
}

static void spoil_set(set_input *set)
{
    static const uint32_t frames[] = {0, MOST_FRAME + 1, UINT32_MAX}, cores[] = {0, MOST_CORES + 1, UINT32_MAX};
    switch (below(9)) {
    case 0:
        set->frame = frames[below(3)];
        break;
    case 1:
        set->cores = cores[below(3)];
        break;
    case 2: /* masks made for another rack */
        set->cores = (uint32_t)between(1, MOST_CORES);
        break;
    case 3:
        spoil_counts(set);
        break;
    case 4:
        set->table_len = one_in(3) ? 0 : set->table_len > 8 ? set->table_len - between(1, 8) : below(4);
        break;
    case 5:
        set->table_len = below(4 * MOST_PIECES);
        break;
    default:
        if (set->budget_count)
            spoil_tasks(set);
    }
}

void random_set(set_input *set)
{
    good_set(set);
    if (one_in(3))
        for (uint64_t faults = between(1, 2); faults > 0; faults--)
            spoil_set(set);
}
