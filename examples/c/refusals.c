/*
 * Want of memory: five lives of transactions, in which each growth of the heap is refused once, the first
 * in one run, the second in the next, until a run meets no refusal. A call that is refused memory must leave
 * words, owners and translations as they were, and no operations, and is made again: then all replies are
 * those of ample memory.
 */
#include "ffaspm.h"
#include "descriptor.h"
#include "heap.h"
#include <stdio.h>
#include <stdlib.h>
#include <string.h>

#define PAGE 4096
#define MOST_PAGES 64
#define MOST_REPLIES 16
#define FIRST_HANDLE 0x800100000001u
#define ALONE (1u << 10) /* no other receiver is named in a retrieve */

static struct ffaspm spm;
static uint8_t tx[PAGE];
static uint8_t rx[PAGE];
static const uint16_t partitions[] = {0x8001, 0x8002, 0x8003};

static void stop(const char *why)
{
    fprintf(stderr, "examples/c/refusals: %s\n", why);
    exit(1);
}

/* ---- what must stay: all words of the tables, and of some pages owners and translations */

static const uint64_t looked_at[] = {
    0x09000000, 0x80000000, 0x80001000, 0x80002000, 0x801ff000, 0x80200000, 0x80201000,
    0x90000000, 0xa0000000, 0xb0000000, 0xc0000000, 0xd0000000, 0xe0000000,
};

struct view {
    uint64_t words[MOST_PAGES][512];
    uint32_t access[3][sizeof looked_at / sizeof looked_at[0]];
    uint16_t owner[sizeof looked_at / sizeof looked_at[0]];
};

static void take_words(struct view *view)
{
    uint64_t address;
    uint32_t pages;
    if (ffaspm_pool(&spm, &address, &pages) != FFASPM_DONE || pages > MOST_PAGES)
        stop("the pool");
    for (uint32_t page = 0; page < pages; page++)
        for (uint32_t index = 0; index < 512; index++)
            if (ffaspm_word(&spm, page, index, &view->words[page][index]) != FFASPM_DONE)
                stop("a word");
}

static void take_view(struct view *view)
{
    memset(view, 0, sizeof *view);
    take_words(view);
    for (size_t i = 0; i < sizeof looked_at / sizeof looked_at[0]; i++) {
        ffaspm_owner(&spm, looked_at[i], &view->owner[i]);
        for (size_t p = 0; p < 3; p++)
            if (ffaspm_translate(&spm, partitions[p], looked_at[i], &view->access[p][i]) != FFASPM_DONE)
                stop("a translation");
    }
}

/* ---- replies, which are kept in the run with ample memory and compared in the others */

struct kept {
    uint64_t regs[8];
    size_t rx_length;
    uint8_t rx[256];
};

static struct kept ample[MOST_REPLIES];
static size_t replies;
static bool is_ample;
static size_t differences;
static size_t refused_calls;

static void take_reply(const struct ffaspm_reply *reply)
{
    struct kept kept = {{0}, 0, {0}};
    if (replies == MOST_REPLIES || reply->rx_length > sizeof kept.rx)
        stop("too much to keep");
    memcpy(kept.regs, reply->regs, sizeof kept.regs);
    kept.rx_length = reply->rx_length;
    memcpy(kept.rx, rx, reply->rx_length);
    if (is_ample)
        ample[replies] = kept;
    else
        differences += memcmp(&ample[replies], &kept, sizeof kept) != 0;
    replies++;
}

/* Makes a call, and once more where it is refused memory. The reply's w0 and w2 are known. */
static void call(uint16_t caller, size_t length, const uint64_t words[4], uint32_t w0, uint32_t w2)
{
    static struct view before, after;
    struct ffaspm_call call = {{words[0], words[1], words[2], words[3], 0, 0, 0, 0}, caller};
    struct ffaspm_reply reply;
    struct ffaspm_operation operation;
    take_view(&before);
    uint32_t status = ffaspm_handle(&spm, &call, tx, length, rx, sizeof rx, &reply);
    if (status == FFASPM_NO_MEMORY) {
        take_view(&after);
        differences += memcmp(&before, &after, sizeof before) != 0;
        differences += reply.operations != 0 || ffaspm_operation(&spm, 0, &operation) != FFASPM_NOTHING_THERE;
        refused_calls++;
        status = ffaspm_handle(&spm, &call, tx, length, rx, sizeof rx, &reply);
    }
    if (status != FFASPM_DONE)
        stop("a call has another status");
    if (reply.regs[0] != w0 || reply.regs[2] != w2)
        stop("a call has another reply");
    take_reply(&reply);
}

/* ---- calls (FF-A 1.1, "Memory transaction descriptor") */

static void map(uint16_t partition, uint64_t address)
{
    call(partition, 0, (const uint64_t[]){FFA_RXTX_MAP, address, address + PAGE, 1}, FFA_SUCCESS, 0);
}

static void register_buffers(void)
{
    map(0x8001, 0x90000000);
    map(0x8002, 0xb0000000);
    map(0x8003, 0xc0000000);
}

/* Sends a page to one receiver, or to two where the second is not 0. */
static void send(uint32_t function, uint16_t sender, uint16_t first, uint16_t second, uint8_t permissions,
                 uint64_t page)
{
    uint32_t composite = second ? 80 : 64;
    memset(tx, 0, sizeof tx);
    put_header(tx, sender, second ? 0x2f : 0, 0, 0, second ? 2 : 1);
    for (uint32_t at = 48; at < composite; at += 16) {
        put(tx, at, 2, at == 48 ? first : second);
        put(tx, at + 2, 1, permissions);
        put(tx, at + 4, 4, composite);
    }
    put(tx, composite, 4, 1);
    put(tx, composite + 4, 4, 1);
    put(tx, composite + 16, 8, page);
    put(tx, composite + 24, 4, 1);
    uint64_t length = composite + 32;
    call(sender, length, (const uint64_t[]){function, length, length, 0}, FFA_SUCCESS, 1);
}

/* `kind`: 2 of a lend, 3 of a donation. Refused where the status is not 0. */
static void retrieve(uint16_t receiver, uint64_t handle, uint32_t kind, uint8_t permissions, uint32_t flags,
                     uint32_t status)
{
    memset(tx, 0, sizeof tx);
    put_header(tx, (uint16_t)(handle >> 32), 0, kind << 3 | flags, handle, 1);
    put(tx, 48, 2, receiver);
    put(tx, 50, 1, permissions);
    call(receiver, 64, (const uint64_t[]){FFA_MEM_RETRIEVE_REQ, 64, 64, 0},
         status ? FFA_ERROR : FFA_MEM_RETRIEVE_RESP, status ? status : 96);
}

static void relinquish(uint16_t receiver, uint64_t handle)
{
    memset(tx, 0, sizeof tx);
    put(tx, 0, 8, handle);
    put(tx, 12, 4, 1);
    put(tx, 16, 2, receiver);
    call(receiver, 18, (const uint64_t[]){FFA_MEM_RELINQUISH, 0, 0, 0}, FFA_SUCCESS, 0);
}

static void reclaim(uint64_t handle, uint32_t status)
{
    call((uint16_t)(handle >> 32), 0, (const uint64_t[]){FFA_MEM_RECLAIM, (uint32_t)handle, handle >> 32, 0},
         status ? FFA_ERROR : FFA_SUCCESS, status);
}

/* ---- the lives */

static void lend(void) { send(FFA_MEM_LEND, 0x8001, 0x8002, 0, 2, 0x80001000); }

static void lend_and_retrieve(void)
{
    lend();
    retrieve(0x8002, FIRST_HANDLE, 2, 2, 0, 0);
}

static void donate_to_and_fro(void)
{
    send(FFA_MEM_DONATE, 0x8001, 0x8002, 0, 0, 0x80001000);
    retrieve(0x8002, FIRST_HANDLE, 3, 1, 0, 0);
    send(FFA_MEM_DONATE, 0x8002, 0x8001, 0, 0, 0x80001000);
    retrieve(0x8001, 0x800200000001, 3, 0, 0, 0);
}

static void lend_and_reclaim(void)
{
    lend_and_retrieve();
    reclaim(FIRST_HANDLE, FFA_DENIED);
    relinquish(0x8002, FIRST_HANDLE);
    reclaim(FIRST_HANDLE, 0);
    reclaim(FIRST_HANDLE, FFA_INVALID_PARAMETERS);
}

static void lend_to_two(void)
{
    send(FFA_MEM_LEND, 0x8001, 0x8002, 0x8003, 2, 0x80200000);
    retrieve(0x8002, FIRST_HANDLE, 2, 2, 0, FFA_INVALID_PARAMETERS);
    retrieve(0x8002, FIRST_HANDLE, 2, 2, ALONE, 0);
    retrieve(0x8003, FIRST_HANDLE, 0, 0, ALONE, 0);
}

static const struct {
    const char *name;
    void (*live)(void);
} lives[] = {
    {"lend", lend},
    {"lend, retrieve", lend_and_retrieve},
    {"donate to and fro", donate_to_and_fro},
    {"lend, retrieve, relinquish, reclaim", lend_and_reclaim},
    {"lend to two", lend_to_two},
};

/* ---- runs */

static uint8_t *manifest;
static size_t manifest_length;

static void read_manifest(const char *path)
{
    static uint8_t bytes[1 << 16];
    FILE *file = fopen(path, "rb");
    if (file == NULL)
        stop("no manifest");
    manifest_length = fread(bytes, 1, sizeof bytes, file);
    fclose(file);
    manifest = bytes;
}

static void make(void)
{
    uint32_t status = ffaspm_make(&spm, manifest, manifest_length);
    if (status == FFASPM_NO_MEMORY)
        status = ffaspm_make(&spm, manifest, manifest_length);
    if (status != FFASPM_DONE)
        stop("the manifest has a fault");
}

/* One life, in which the growth with this number is refused. */
static bool is_refused_in(void (*live)(void), size_t number)
{
    replies = 0;
    heap_refuse(number);
    make();
    register_buffers();
    live();
    bool refused = heap_has_refused();
    ffaspm_end(&spm);
    if (heap_taken() != 0)
        stop("memory was not given back");
    return refused;
}

static void refuse_in_turn(const char *name, void (*live)(void))
{
    is_ample = true;
    is_refused_in(live, 0);
    is_ample = false;
    refused_calls = 0;
    size_t number = 1;
    while (is_refused_in(live, number))
        number++;
    printf("%s: %zu growths refused in turn, %zu of them in calls\n", name, number - 1, refused_calls);
}

int main(int count, char **words)
{
    if (count != 2)
        stop("give the manifest's path");
    read_manifest(words[1]);
    for (size_t i = 0; i < sizeof lives / sizeof lives[0]; i++)
        refuse_in_turn(lives[i].name, lives[i].live);
    printf("%zu differences\n", differences);
    return differences != 0;
}
