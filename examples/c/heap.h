/* The heap of the examples. */
#ifndef HEAP_H
#define HEAP_H
#include <stdbool.h>
#include <stddef.h>

/* From now on so many allocations succeed, and all later ones are refused. */
void heap_allow(size_t allocations);

/* The allocation with this number from now on, the first being 1, is refused, and no other. 0: none. */
void heap_refuse(size_t number);

/* Whether that one came. */
bool heap_has_refused(void);

/* How many rooms are taken and not given back. */
size_t heap_taken(void);
#endif
