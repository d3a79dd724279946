/* The heap of these checks: it counts bytes. */
#ifndef COUNTED_HEAP_H
#define COUNTED_HEAP_H
#include <stddef.h>

/* From now on what would take more than so many bytes in all is refused. At first nothing is. */
void heap_limit(size_t bytes);

/* How many bytes are taken and not given back. */
size_t heap_taken(void);

/* The most that were, since the last call of `heap_forget`. Where a room grows, the old one and the new one count. */
size_t heap_most(void);

void heap_forget(void);

/* A room that is taken, where it lies, and how many bytes it has. `place` is NULL where there is none. */
struct heap_room {
    const void *place;
    size_t size;
};

/* All rooms that are taken, one after the other. */
struct heap_room heap_first(void);

struct heap_room heap_next(struct heap_room room);
#endif
