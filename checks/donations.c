/*
 * A million donations of the pages of a region, to and fro between three partitions, whole, in parts and in other cuts.
 * Each life of a thousand ends with all pages at their first owner again. The heap must never take a sixth more than it
 * did at most in the first, nor, after the first hundred, a twentieth more than in those (the list of the longest call's
 * operations stays, and a longer call may be drawn later), and no hundred lives must take twice the time of the first; and no call is answered out of
 * memory over the bytes that ffaspm_heap_bound tells. Owners and translations are compared with a list of pages.
 */
#include "counted_heap.h"
#include "descriptor.h"
#include "ffaspm.h"
#include <stdio.h>
#include <stdlib.h>
#include <string.h>
#include <time.h>

#define PAGE 4096
#define PARTITIONS 3
#define PAGES 4096 /* of the region that is given away */
#define BASE UINT64_C(0x80000000)
#define LIVES 1000
#define DONATIONS 1000 /* that are drawn in a life */
#define LIVES_OF_A_PART 100
#define MOST_RANGES 400

static struct ffaspm spm;
static uint8_t tx[4 * PAGE];
static uint8_t rx[4 * PAGE];
static struct ffaspm_reply reply;
static uint8_t owners[PAGES]; /* what must come out */
static uint32_t donations;

static void stop(const char *why)
{
    fprintf(stderr, "checks/donations: donation %u: %s\n", donations, why);
    exit(1);
}

/* ---- numbers that are drawn (xorshift) */

static uint64_t drawn = 88172645463325252;

static uint32_t draw(uint32_t below)
{
    drawn ^= drawn << 13;
    drawn ^= drawn >> 7;
    drawn ^= drawn << 17;
    return (uint32_t)(drawn >> 33) % below;
}

/* ---- calls */

static uint16_t id(uint32_t partition) { return (uint16_t)(0x8001 + partition); }

static void call(uint32_t partition, size_t length, uint64_t w0, uint64_t w1, uint64_t w2, uint64_t w3, uint32_t answer)
{
    struct ffaspm_call call = {{w0, w1, w2, w3, 0, 0, 0, 0}, id(partition)};
    uint32_t status = ffaspm_handle(&spm, &call, tx, length, rx, sizeof rx, &reply);
    if (status == FFASPM_NO_MEMORY)
        stop("out of memory");
    if (status != FFASPM_DONE || reply.regs[0] != answer)
        stop("a call is refused");
}

static void put_receiver(uint32_t sender, uint32_t receiver, uint32_t flags, uint64_t handle, uint8_t permissions)
{
    memset(tx, 0, 80);
    put_header(tx, id(sender), 0, flags, handle, 1);
    put(tx, 48, 2, id(receiver));
    put(tx, 50, 1, permissions);
}

/* ---- donations */

static struct {
    uint32_t pages;
    uint32_t count;
} ranges;

static void add_range(uint32_t first, uint32_t count)
{
    put(tx, 80 + 16 * ranges.count, 8, BASE + first * (uint64_t)PAGE);
    put(tx, 80 + 16 * ranges.count + 8, 8, count);
    ranges.pages += count;
    ranges.count++;
}

static void give(uint32_t first, uint32_t count, uint32_t taker)
{
    memset(owners + first, (int)taker, count);
    add_range(first, count);
}

/* How many pages from a first one on, at most so many, have the owner. */
static uint32_t owned(uint32_t first, uint32_t most, uint32_t owner)
{
    uint32_t count = 0;
    while (count < most && first + count < PAGES && owners[first + count] == owner)
        count++;
    return count;
}

/* Donates what `give` was called for, and retrieves it. */
static void donate(uint32_t owner, uint32_t taker)
{
    put_receiver(owner, taker, 0, 0, 0);
    put(tx, 52, 4, 64);
    put(tx, 64, 4, ranges.pages);
    put(tx, 68, 4, ranges.count);
    size_t length = 80 + 16 * ranges.count;
    call(owner, length, FFA_MEM_DONATE, length, length, 0, FFA_SUCCESS);
    uint64_t handle = reply.regs[2] | reply.regs[3] << 32;
    put_receiver(owner, taker, 3 << 3, handle, 2);
    call(taker, 64, FFA_MEM_RETRIEVE_REQ, 64, 64, 0, FFA_MEM_RETRIEVE_RESP);
    call(taker, 0, FFA_RX_RELEASE, 0, 0, 0, FFA_SUCCESS);
    memset(&ranges, 0, sizeof ranges);
    donations++;
}

/* Pages of an owner from a page on, so many ranges of at most so many pages, with at most so many pages between them. */
static void give_some(uint32_t page, uint32_t owner, uint32_t most, uint32_t pages, uint32_t apart, uint32_t taker)
{
    while (page < PAGES && ranges.count < most) {
        uint32_t count = owned(page, 1 + draw(pages), owner);
        if (count > 0)
            give(page, count, taker);
        page += count + 1 + draw(apart);
    }
}

static void donate_drawn(void)
{
    uint32_t page = draw(PAGES);
    uint32_t owner = owners[page];
    uint32_t taker = (owner + 1 + draw(PARTITIONS - 1)) % PARTITIONS;
    if (draw(4) == 0)
        give(page, owned(page, PAGES, owner), taker);
    else
        give_some(page, owner, 1 + draw(16), 1 + draw(64), 1 + draw(64), taker);
    donate(owner, taker);
}

/* Each other page, as many as go into one call. */
static void donate_many(uint32_t owner, uint32_t taker)
{
    for (uint32_t page = 0; page < 2 * MOST_RANGES; page += 2)
        give(page, 1, taker);
    donate(owner, taker);
}

/* All pages come back to the first partition. */
static void bring_home(void)
{
    for (uint32_t owner = 1; owner < PARTITIONS; owner++) {
        for (uint32_t page = 0; page < PAGES; page++) {
            uint32_t count = owned(page, PAGES, owner);
            if (count > 0)
                give(page, count, 0);
            page += count;
            if (ranges.count == MOST_RANGES)
                donate(owner, 0);
        }
        if (ranges.count > 0)
            donate(owner, 0);
    }
}

static void compare(void)
{
    for (uint32_t page = 0; page < PAGES; page++) {
        uint64_t address = BASE + page * (uint64_t)PAGE;
        uint16_t owner;
        if (ffaspm_owner(&spm, address, &owner) != FFASPM_DONE || owner != id(owners[page]))
            stop("another owner");
        for (uint32_t partition = 0; partition < PARTITIONS; partition++) {
            uint32_t access;
            ffaspm_translate(&spm, id(partition), address, &access);
            if ((access != 0) != (partition == owners[page]))
                stop("another translation");
        }
    }
}

static void live(void)
{
    give(0, PAGES, 1);
    donate(0, 1);
    donate_many(1, 2);
    for (uint32_t i = 0; i < DONATIONS; i++)
        donate_drawn();
    if (draw(20) == 0)
        compare();
    bring_home();
}

int main(void)
{
    static const char manifest[] =
        "pool = 0x40000000\n"
        "[[partition]]\nid = 0x8001\nquota = 16\n"
        "[[partition]]\nid = 0x8002\nquota = 16\n"
        "[[partition]]\nid = 0x8003\nquota = 16\n"
        "[[region]]\nbase = 0x80000000\npages = 4096\nkind = \"normal\"\nowner = 0x8001\n"
        "grants = [ { id = 0x8001, data = \"rw\", exec = false } ]\n"
        "[[region]]\nbase = 0x90000000\npages = 8\nkind = \"normal\"\nowner = 0x8001\n"
        "grants = [ { id = 0x8001, data = \"rw\", exec = false } ]\n"
        "[[region]]\nbase = 0xa0000000\npages = 8\nkind = \"normal\"\nowner = 0x8002\n"
        "grants = [ { id = 0x8002, data = \"rw\", exec = false } ]\n"
        "[[region]]\nbase = 0xb0000000\npages = 8\nkind = \"normal\"\nowner = 0x8003\n"
        "grants = [ { id = 0x8003, data = \"rw\", exec = false } ]\n";
    uint64_t bound;
    if (ffaspm_heap_bound((const uint8_t *)manifest, sizeof manifest - 1, 512, &bound) != FFASPM_DONE)
        stop("the bound");
    heap_limit(bound);
    if (ffaspm_make(&spm, (const uint8_t *)manifest, sizeof manifest - 1) != FFASPM_DONE)
        stop("the manifest");
    for (uint32_t partition = 0; partition < PARTITIONS; partition++) {
        uint64_t buffers = 0x90000000 + partition * UINT64_C(0x10000000);
        call(partition, 0, FFA_RXTX_MAP, buffers, buffers + 4 * PAGE, 4, FFA_SUCCESS);
    }
    heap_forget();
    size_t once = 0; /* at most in the first life */
    size_t most = 0; /* and in the first hundred */
    clock_t first = 0;
    clock_t before = clock();
    for (uint32_t i = 0; i < LIVES; i++) {
        live();
        if (i == 0)
            once = heap_most();
        if (i < LIVES_OF_A_PART)
            most = heap_most();
        if (heap_most() > once + once / 6 || heap_most() > most + most / 20)
            stop("the heap grows");
        if ((i + 1) % LIVES_OF_A_PART == 0) {
            clock_t now = clock();
            if (i < LIVES_OF_A_PART)
                first = now - before;
            printf("%u donations: %zu bytes, %ld milliseconds for the last %u lives\n", donations, heap_taken(),
                   (long)((now - before) * 1000 / CLOCKS_PER_SEC), LIVES_OF_A_PART);
            if (now - before > 2 * first)
                stop("donations take longer");
            before = now;
        }
    }
    compare();
    printf("%zu bytes at most, in the first hundred lives %zu, bound %llu\n", heap_most(), most, (unsigned long long)bound);
    if (ffaspm_end(&spm) != FFASPM_DONE || heap_taken() != 0)
        stop("bytes are left");
    return 0;
}
