/* The arrays lent to one call, and whether it changed what it had to keep.
 *
 * Three ways to lend. `words`: each array stands between guard words, which a write outside it changes. `heap`: each array is a heap block of its
 * own exact size, for tools that watch the heap. `pages`: each array touches a page that may not be read or written, before it or behind it, so
 * that even a read outside it on that side stops the program; guard words stand on its other side. */
#ifndef LENT_H
#define LENT_H

#include <stddef.h>

/* Chooses the way, `words` if it is never called; hands back 0 if the name is not one of the three. */
int lend_by(const char *way);

/* Room for `count` elements of `size` bytes, holding random bytes; never null, not even for no element. */
void *lend(size_t count, size_t size);

/* The same, holding a copy of `count` elements. */
void *lend_copy(const void *from, size_t count, size_t size);

/* From here on a change is seen. */
void lent_begin(void);

/* Whether any lent byte or any guard changed, but for the first `bytes` bytes of the array `written`, which may be null. */
int lent_changed(const void *written, size_t bytes);

/* Takes all arrays back. */
void lent_back(void);

#endif
