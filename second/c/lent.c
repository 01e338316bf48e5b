#define _DEFAULT_SOURCE /* MAP_ANONYMOUS */
#include "lent.h"

#include <stdio.h>
#include <stdlib.h>
#include <string.h>
#include <sys/mman.h>

#include "random.h"

enum { MOST_LENT = 4, GUARD = 8 * sizeof(uint64_t), PAGE = 65536, PAGES_ROOM = 2 * PAGE };
enum way { WORDS, HEAP, PAGES };

typedef struct {
    unsigned char *block; /* `before` guard bytes, the array, `after` guard bytes */
    size_t before, bytes, after;
    unsigned char *kept; /* what the block held when the call began */
} lent_array;

static enum way way = WORDS;
static lent_array lent[MOST_LENT];
static size_t lent_count;
static unsigned char *rooms[MOST_LENT]; /* between two pages that may not be touched */

static void no_memory(void)
{
    fprintf(stderr, "guards: there is no memory for the lent arrays\n");
    exit(2);
}

static void *take(size_t bytes)
{
    void *block = malloc(bytes);
    if (!block)
        no_memory();
    return block;
}

int lend_by(const char *name)
{
    static const char *const names[] = {"words", "heap", "pages"};
    for (int k = WORDS; k <= PAGES; k++)
        if (strcmp(name, names[k]) == 0) {
            way = (enum way)k;
            return 1;
        }
    return 0;
}

static unsigned char *room(size_t slot)
{
    if (!rooms[slot]) {
        unsigned char *all = mmap(NULL, PAGES_ROOM + 2 * PAGE, PROT_NONE, MAP_PRIVATE | MAP_ANONYMOUS, -1, 0);
        if (all == MAP_FAILED || mprotect(all + PAGE, PAGES_ROOM, PROT_READ | PROT_WRITE) != 0)
            no_memory();
        rooms[slot] = all + PAGE;
    }
    return rooms[slot];
}

static void place(lent_array *array, size_t bytes)
{
    int front = one_in(2);
    array->bytes = bytes;
    array->before = way == WORDS || (way == PAGES && !front) ? GUARD : 0;
    array->after = way == WORDS || (way == PAGES && front) ? GUARD : 0;
    size_t all = array->before + bytes + array->after;
    if (way == PAGES)
        array->block = room(lent_count) + (front ? 0 : PAGES_ROOM - all);
    else
        array->block = take(all);
    for (size_t at = 0; at < all; at += sizeof(uint64_t)) {
        uint64_t word = random_word();
        memcpy(array->block + at, &word, all - at < sizeof word ? all - at : sizeof word);
    }
}

void *lend(size_t count, size_t size)
{
    if (lent_count == MOST_LENT || count > (PAGES_ROOM - GUARD) / size) {
        fprintf(stderr, "guards: more was lent to one call than lent.c has room for\n");
        exit(2);
    }
    lent_array *array = &lent[lent_count];
    place(array, count * size);
    lent_count++;
    return array->block + array->before;
}

void *lend_copy(const void *from, size_t count, size_t size)
{
    void *to = lend(count, size);
    memcpy(to, from, count * size);
    return to;
}

void lent_begin(void)
{
    for (size_t k = 0; k < lent_count; k++) {
        size_t all = lent[k].before + lent[k].bytes + lent[k].after;
        lent[k].kept = take(all);
        memcpy(lent[k].kept, lent[k].block, all);
    }
}

int lent_changed(const void *written, size_t bytes)
{
    for (size_t k = 0; k < lent_count; k++) {
        const lent_array *a = &lent[k];
        size_t from = a->block + a->before == written ? a->before + bytes : a->before;
        size_t all = a->before + a->bytes + a->after;
        if (memcmp(a->block, a->kept, a->before) != 0 || memcmp(a->block + from, a->kept + from, all - from) != 0)
            return 1;
    }
    return 0;
}

void lent_back(void)
{
    while (lent_count > 0) {
        lent_array *array = &lent[--lent_count];
        free(array->kept);
        if (way != PAGES)
            free(array->block);
    }
}
