/* Random jobs over a table. */
#include "inputs.h"
#include "random.h"

static size_t smaller(size_t one, size_t other)
{
    return one < other ? one : other;
}

static uint32_t pick_task(const table_input *table)
{
    static const uint32_t tasks[] = {0, 1, 63, 64, UINT32_MAX};
    if (table->len < 4 || one_in(12))
        return tasks[below(5)];
    return table->numbers[4 * below(table->len / 4) + 1];
}

static void pick_jobs(job_input *jobs, size_t count, uint64_t frame)
{
    const uint64_t gaps[] = {1, frame / 2 + 1, 3 * frame + 1, 100 * frame + 1};
    const uint64_t asked[] = {0, 1, frame / 3 + 1, MOST_UNITS};
    uint64_t gap = gaps[below(4)], most = asked[below(4)];
    uint64_t release = one_in(5) ? MOST_RELEASE - 10 : below(2 * frame + 1);
    for (size_t job = 0; job < count; job++) {
        jobs->releases[job] = release;
        jobs->units[job] = (uint32_t)between(0, most < MOST_UNITS ? most : MOST_UNITS);
        release += below(gap);
        if (release > MOST_RELEASE)
            release = MOST_RELEASE;
    }
    jobs->release_count = jobs->unit_count = count;
    jobs->finish_count = count + below(4);
}

static void spoil_jobs(job_input *jobs)
{
    static const uint64_t releases[] = {0, MOST_RELEASE, MOST_RELEASE + 1, UINT64_MAX};
    static const uint32_t units[] = {MOST_UNITS, MOST_UNITS + 1, UINT32_MAX};
    size_t both = smaller(jobs->release_count, jobs->unit_count), job = both ? below(both) : 0;
    switch (below(8)) {
    case 0:
        jobs->release_count -= jobs->release_count > 0;
        break;
    case 1:
        jobs->unit_count -= jobs->unit_count > 0;
        break;
    case 2:
        jobs->releases[job] = releases[below(4)];
        break;
    case 3:
        jobs->units[job] = units[below(3)];
        break;
    case 4:
        jobs->releases[job] -= jobs->releases[job] > 0;
        break;
    case 5:
        jobs->task = (uint32_t)below(66);
        break;
    case 6:
        jobs->release_count = below(both + 1);
        break;
    default:
        jobs->finish_count = both ? below(both) : 0;
    }
}

void random_jobs(job_input *jobs, const table_input *table)
{
    size_t count = one_in(20) ? 0 : one_in(20) ? between(100, 1000) : between(1, 12);
    if (one_in(200))
        count = between(MOST_JOBS - 1, MOST_JOBS + 1);
    jobs->task = pick_task(table);
    pick_jobs(jobs, count, table->frame);
    if (one_in(3))
        for (uint64_t faults = between(1, 2); faults > 0; faults--)
            spoil_jobs(jobs);
}
