/* The three heap functions that the library calls, over malloc. Each room has its size in front, and all stand in a list. */
#include "counted_heap.h"
#include "ffaspm.h"
#include <stdlib.h>
#include <string.h>

static size_t limit = SIZE_MAX;
static size_t taken;
static size_t most;

/* malloc aligns to 16, which is the most that is asked for, and this has a multiple of it. */
struct room {
    struct room *next;
    struct room *before;
    size_t size;
    size_t pad;
};

static struct room rooms = {&rooms, &rooms, 0, 0};

static struct heap_room told(const struct room *room)
{
    return room == &rooms ? (struct heap_room){NULL, 0} : (struct heap_room){room + 1, room->size};
}

struct heap_room heap_first(void) { return told(rooms.next); }

struct heap_room heap_next(struct heap_room room) { return told(((const struct room *)room.place - 1)->next); }

void heap_limit(size_t bytes) { limit = bytes; }

size_t heap_taken(void) { return taken; }

size_t heap_most(void) { return most; }

void heap_forget(void) { most = taken; }

struct rattle_memory rattle_alloc(size_t size, size_t align)
{
    (void)align;
    if (size > limit || taken > limit - size)
        return (struct rattle_memory){false, NULL};
    struct room *room = malloc(sizeof *room + size);
    if (room == NULL)
        return (struct rattle_memory){false, NULL};
    *room = (struct room){rooms.next, &rooms, size, 0};
    room->next->before = room;
    rooms.next = room;
    taken += size;
    if (most < taken)
        most = taken;
    return (struct rattle_memory){true, room + 1};
}

struct rattle_memory rattle_realloc(void *place, size_t kept, size_t size, size_t align)
{
    struct rattle_memory grown = rattle_alloc(size, align);
    if (!grown.ok)
        return grown;
    memcpy(grown.place, place, kept < size ? kept : size);
    rattle_dealloc(place);
    return grown;
}

void rattle_dealloc(void *place)
{
    struct room *room = (struct room *)place - 1;
    taken -= room->size;
    room->next->before = room->before;
    room->before->next = room->next;
    free(room);
}
