/*
 * What a manager takes of the heap, over a heap that counts: once it is made, beside the words of its tables, with 64
 * partitions and 64 regions of five sizes; and the list of operations, when 512 ranges of a page in two chunks are lent,
 * retrieved, relinquished and reclaimed. All figures are printed; one above its bound fails.
 */
#include "counted_heap.h"
#include "descriptor.h"
#include "ffaspm.h"
#include <stdio.h>
#include <stdlib.h>
#include <string.h>

/* ---- the bounds */

/* The bytes of an operation. */
#define OPERATION_SIZE 24

/* Bytes that a manager has when it is made, beside the words: these, and so many for each page of the pool. */
#define MOST_BESIDE 65536
#define MOST_BESIDE_A_PAGE 8

/* The same while it is made, with what the manifest's document takes; and for each chunk of 2 MB of the largest region, which is three operations. */
#define MOST_WHILE_MADE (MOST_BESIDE + 262144)
#define MOST_A_CHUNK (3 * OPERATION_SIZE)

/* Places that the list of operations has for 512 ranges of a page in two chunks, each other page of which they have: one for each range, and some. */
#define MOST_OPERATIONS (RANGES + 20)

#define PAGE 4096
#define ROWS 64 /* partitions and regions, as many as a manifest may have */
#define RANGES 512
#define BLOCK UINT64_C(0x200000)
#define GIGABYTE UINT64_C(0x40000000)
#define LENT UINT64_C(0x80000000)
#define BUFFERS UINT64_C(0xc0000000)

static struct ffaspm spm;
static uint8_t tx[4 * PAGE];
static uint8_t rx[4 * PAGE];
static struct ffaspm_reply reply;
static char document[32768];
static size_t length;
static bool is_above;

static void stop(const char *why)
{
    fprintf(stderr, "checks/room: %s\n", why);
    exit(1);
}

static void bound(const char *name, size_t bytes, size_t most)
{
    if (bytes <= most)
        return;
    fprintf(stderr, "checks/room: %s: %zu bytes, and %zu are the most\n", name, bytes, most);
    is_above = true;
}

/* ---- manifests */

static uint16_t id(uint32_t partition) { return (uint16_t)(0x8001 + partition); }

static void write_partition(uint32_t partition, uint32_t quota)
{
    length += (size_t)snprintf(document + length, sizeof document - length, "[[partition]]\nid = %u\nquota = %u\n",
                               id(partition), quota);
}

static void write_region(uint64_t base, uint32_t pages, uint32_t owner)
{
    length += (size_t)snprintf(document + length, sizeof document - length,
                               "[[region]]\nbase = %llu\npages = %u\nkind = \"normal\"\nowner = %u\n"
                               "grants = [ { id = %u, data = \"rw\", exec = false } ]\n",
                               (unsigned long long)base, pages, id(owner), id(owner));
}

static void begin_manifest(void) { length = (size_t)snprintf(document, sizeof document, "pool = 0\n"); }

static void make(void)
{
    if (length >= sizeof document || ffaspm_make(&spm, (const uint8_t *)document, length) != FFASPM_DONE)
        stop("the manifest");
}

static void end(void)
{
    if (ffaspm_end(&spm) != FFASPM_DONE || heap_taken() != 0)
        stop("bytes are left");
}

/* ---- once it is made */

/* Regions of so many pages, and as many of them; the others have a page, so that all end at 512 GB or before. */
static const struct shape {
    const char *name;
    uint32_t pages;
    uint32_t count;
    uint32_t quota;
} shapes[] = {
    {"of a page", 1, ROWS, 16},
    {"of 2 MB and a page", 513, ROWS, 16},
    {"of 1 GB", 1 << 18, ROWS, 16},
    {"of 4 GB", 1 << 20, ROWS, 16},
    {"of 64 GB", 1 << 24, 7, 80},
};

static void write_shape(const struct shape *shape)
{
    uint64_t size = shape->pages * (uint64_t)PAGE;
    uint64_t apart = size < GIGABYTE ? GIGABYTE : size;
    begin_manifest();
    for (uint32_t i = 0; i < ROWS; i++) {
        write_partition(i, shape->quota);
        if (i < shape->count)
            write_region((i + 1) * apart, shape->pages, i);
        else
            write_region(GIGABYTE + i * BLOCK, 1, i);
    }
}

static void look_at_shape(const struct shape *shape)
{
    write_shape(shape);
    heap_forget();
    make();
    size_t peak = heap_most();
    uint64_t address;
    uint32_t pages;
    if (ffaspm_pool(&spm, &address, &pages) != FFASPM_DONE)
        stop("the pool");
    size_t words = pages * (size_t)PAGE;
    size_t most = MOST_BESIDE + MOST_BESIDE_A_PAGE * (size_t)pages;
    if (heap_taken() < words)
        stop("the heap does not have the words");
    size_t beside = heap_taken() - words;
    size_t chunks = shape->pages / 512 + 1;
    printf("%u partitions, %u regions, %u of them %s: %zu bytes of words, %zu beside them, bound %zu; %zu at most while it is made\n",
           ROWS, ROWS, shape->count, shape->name, words, beside, most, peak - words);
    bound("a manager that is made, beside the words", beside, most);
    bound("a manager while it is made, beside the words", peak - words,
          MOST_WHILE_MADE + MOST_BESIDE_A_PAGE * (size_t)pages + MOST_A_CHUNK * chunks);
    end();
}

/* ---- the list of operations */

static struct ffaspm_operation operations[4 * RANGES];

static void take_operations(void)
{
    if (reply.operations == 0 || reply.operations > sizeof operations / sizeof *operations)
        stop("another number of operations");
    for (size_t i = 0; i < reply.operations; i++)
        if (ffaspm_operation(&spm, i, &operations[i]) != FFASPM_DONE)
            stop("an operation");
}

/* Whether the words of all operations stand there, one operation behind the other. */
static bool has_operations(const uint8_t *at)
{
    for (size_t i = 0; i < reply.operations; i++)
        if (operations[i].kind == FFASPM_SET && memcmp(at + i * OPERATION_SIZE, &operations[i].word, 8) != 0)
            return false;
    return true;
}

/* The room in which the operations of the last call stand. */
static struct heap_room list_room(void)
{
    struct heap_room room = heap_first();
    for (; room.place != NULL; room = heap_next(room))
        for (size_t at = 0; at < OPERATION_SIZE && reply.operations * OPERATION_SIZE <= room.size; at += 8)
            if (has_operations((const uint8_t *)room.place + at))
                return room;
    stop("the list of operations is not found");
    return room;
}

/* The call must be answered so. */
static void call(uint32_t partition, size_t bytes, uint64_t w0, uint64_t w1, uint64_t w2, uint64_t w3, uint32_t answer)
{
    struct ffaspm_call call = {{w0, w1, w2, w3, 0, 0, 0, 0}, id(partition)};
    if (ffaspm_handle(&spm, &call, tx, bytes, rx, sizeof rx, &reply) != FFASPM_DONE || reply.regs[0] != answer)
        stop("a call is refused");
}

/* What the last call asked for: a list that was long enough before stays where it is. */
static void look_at_list(const char *name)
{
    static const void *before;
    take_operations();
    struct heap_room room = list_room();
    size_t asked = room.place == before ? 0 : room.size;
    before = room.place;
    printf("%s of %u ranges: %zu operations; %zu bytes asked for, for their list, which has %zu, bound %u\n", name, RANGES,
           reply.operations, asked, room.size, MOST_OPERATIONS * OPERATION_SIZE);
    bound(name, room.size, MOST_OPERATIONS * OPERATION_SIZE);
}

static void put_receiver(uint32_t flags, uint64_t handle)
{
    memset(tx, 0, sizeof tx);
    put_header(tx, id(0), 0, flags, handle, 1);
    put(tx, 48, 2, id(1));
    put(tx, 50, 1, 2);
}

static uint64_t lend(void)
{
    put_receiver(0, 0);
    put(tx, 52, 4, 64);
    put(tx, 64, 4, RANGES);
    put(tx, 68, 4, RANGES);
    for (uint32_t i = 0; i < RANGES; i++) {
        put(tx, 80 + 16 * i, 8, LENT + 2 * i * (uint64_t)PAGE);
        put(tx, 80 + 16 * i + 8, 4, 1);
    }
    size_t bytes = 80 + 16 * RANGES;
    call(0, bytes, FFA_MEM_LEND, bytes, bytes, 0, FFA_SUCCESS);
    look_at_list("a lend");
    return reply.regs[2] | reply.regs[3] << 32;
}

static void retrieve(uint64_t handle)
{
    put_receiver(2 << 3, handle);
    call(1, 64, FFA_MEM_RETRIEVE_REQ, 64, 64, 0, FFA_MEM_RETRIEVE_RESP);
    look_at_list("a retrieve");
    call(1, 0, FFA_RX_RELEASE, 0, 0, 0, FFA_SUCCESS);
}

static void give_back(uint64_t handle)
{
    put(tx, 0, 8, handle);
    put(tx, 8, 4, 0);
    put(tx, 12, 4, 1);
    put(tx, 16, 2, id(1));
    call(1, 18, FFA_MEM_RELINQUISH, 0, 0, 0, FFA_SUCCESS);
    look_at_list("a relinquish");
    call(0, 0, FFA_MEM_RECLAIM, handle & 0xffffffff, handle >> 32, 0, FFA_SUCCESS);
    look_at_list("a reclaim");
}

/* Each other page of two chunks, which the sender has as blocks. */
static void look_at_lists(void)
{
    begin_manifest();
    write_region(LENT, 2 * RANGES, 0);
    for (uint32_t i = 0; i < 2; i++) {
        write_partition(i, 16);
        write_region(BUFFERS + i * BLOCK, 8, i);
    }
    make();
    for (uint32_t i = 0; i < 2; i++)
        call(i, 0, FFA_RXTX_MAP, BUFFERS + i * BLOCK, BUFFERS + i * BLOCK + 4 * PAGE, 4, FFA_SUCCESS);
    uint64_t handle = lend();
    retrieve(handle);
    give_back(handle);
    end();
}

int main(void)
{
    for (size_t i = 0; i < sizeof shapes / sizeof *shapes; i++)
        look_at_shape(&shapes[i]);
    look_at_lists();
    if (is_above)
        return 1;
    printf("no figure is above its bound\n");
    return 0;
}
