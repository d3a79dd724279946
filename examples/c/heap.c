/* The three heap functions that the library calls, over malloc. */
#include "heap.h"
#include "ffaspm.h"
#include <stdlib.h>

static size_t allowed = SIZE_MAX;
static size_t taken;

void heap_allow(size_t allocations) { allowed = allocations; }

static size_t until_refused;
static bool has_refused;

void heap_refuse(size_t number)
{
    until_refused = number;
    has_refused = false;
}

bool heap_has_refused(void) { return has_refused; }

size_t heap_taken(void) { return taken; }

static bool is_allowed(void)
{
    if (until_refused > 0 && --until_refused == 0) {
        has_refused = true;
        return false;
    }
    if (allowed == 0)
        return false;
    if (allowed != SIZE_MAX)
        allowed--;
    return true;
}

/* malloc aligns to 16, which is the most that is asked for. */
struct rattle_memory rattle_alloc(size_t size, size_t align)
{
    (void)align;
    void *place = is_allowed() ? malloc(size ? size : 1) : NULL;
    taken += place != NULL;
    return (struct rattle_memory){place != NULL, place};
}

struct rattle_memory rattle_realloc(void *place, size_t kept, size_t size, size_t align)
{
    (void)kept, (void)align;
    void *moved = is_allowed() ? realloc(place, size ? size : 1) : NULL;
    return (struct rattle_memory){moved != NULL, moved};
}

void rattle_dealloc(void *place)
{
    taken--;
    free(place);
}
