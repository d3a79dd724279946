/*
 * A hundred thousand drawn calls, of four manifests, over a heap of the bytes that ffaspm_heap_bound tells, and no more: none
 * may be answered with FFASPM_NO_MEMORY. Sends of 1 to 512 ranges, most of them single pages with pages between them, whose
 * blocks of intervals fill and part; retrievals, relinquishments, reclaims and donations in any order; and calls of drawn
 * registers. A list of pages tells who owns a page, and whether it is in a live transaction, so that sends are accepted.
 */
#include "counted_heap.h"
#include "descriptor.h"
#include "ffaspm.h"
#include <stdio.h>
#include <stdlib.h>
#include <string.h>

#define PAGE 4096
#define MOST_PARTITIONS 8
#define MOST_PAGES 32768
#define MOST_LIVE (32 * MOST_PARTITIONS)
#define BASE UINT64_C(0x80000000)
#define BUFFERS UINT64_C(0x40000000)

static struct ffaspm spm;
static uint8_t tx[4 * PAGE];
static uint8_t rx[4 * PAGE];
static struct ffaspm_reply reply;
static uint32_t calls, answered_calls;

/* ---- what there is, of the manifest that is drawn upon */

static uint32_t partitions, pages, most_ranges;
static uint8_t owners[MOST_PAGES];
static uint8_t is_live[MOST_PAGES];

struct range {
    uint32_t first;
    uint32_t count;
};

static struct transaction {
    uint64_t handle;
    uint32_t kind; /* 1 share, 2 lend, 3 donation */
    uint32_t sender;
    uint32_t receiver;
    bool is_retrieved;
    uint32_t ranges;
    struct range range[512];
} live[MOST_LIVE];
static uint32_t live_count;

static void stop(const char *why)
{
    fprintf(stderr, "checks/bound: call %u: %s\n", calls, why);
    exit(1);
}

/* ---- numbers that are drawn (xorshift) */

static uint64_t drawn = 88172645463325252;

static uint64_t draw_word(void)
{
    drawn ^= drawn << 13;
    drawn ^= drawn >> 7;
    drawn ^= drawn << 17;
    return drawn;
}

static uint32_t draw(uint32_t below) { return (uint32_t)(draw_word() >> 33) % below; }

/* ---- calls */

static uint16_t id(uint32_t partition) { return (uint16_t)(0x8001 + partition); }

/* Whether the call was answered so. */
static bool call(uint32_t partition, size_t length, uint64_t w0, uint64_t w1, uint64_t w2, uint64_t w3, uint32_t answer)
{
    struct ffaspm_call call = {{w0, w1, w2, w3, 0, 0, 0, 0}, id(partition)};
    uint32_t status = ffaspm_handle(&spm, &call, tx, length, rx, sizeof rx, &reply);
    calls++;
    if (status != FFASPM_DONE)
        stop(status == FFASPM_NO_MEMORY ? "out of memory" : "no answer");
    answered_calls += reply.regs[0] == answer;
    return reply.regs[0] == answer;
}

static void put_receiver(uint32_t sender, uint32_t receiver, uint32_t flags, uint64_t handle)
{
    memset(tx, 0, 80);
    put_header(tx, id(sender), 0, flags, handle, 1);
    put(tx, 48, 2, id(receiver));
    put(tx, 50, 1, 2);
}

static void mark(const struct transaction *t, bool is)
{
    for (uint32_t i = 0; i < t->ranges; i++)
        memset(is_live + t->range[i].first, is, t->range[i].count);
}

/* Up to so many ranges of pages that the sender may send, from a drawn page on. */
static void draw_ranges(struct transaction *t, uint32_t most, uint32_t longest, uint32_t apart)
{
    uint32_t page = draw(pages);
    t->ranges = 0;
    while (page < pages && t->ranges < most) {
        uint32_t wanted = 1 + draw(longest);
        uint32_t count = 0;
        while (count < wanted && page + count < pages && owners[page + count] == t->sender && !is_live[page + count])
            count++;
        if (count > 0)
            t->range[t->ranges++] = (struct range){page, count};
        page += count + 1 + draw(apart);
    }
}

static void send(void)
{
    static const uint32_t functions[] = {0, FFA_MEM_SHARE, FFA_MEM_LEND, FFA_MEM_DONATE};
    if (live_count == MOST_LIVE)
        return;
    struct transaction *t = &live[live_count];
    *t = (struct transaction){.kind = 1 + draw(3), .sender = draw(partitions)};
    t->receiver = (t->sender + 1 + draw(partitions - 1)) % partitions;
    draw_ranges(t, draw(3) == 0 ? most_ranges : 1 + draw(most_ranges < 64 ? most_ranges : 64), draw(4) == 0 ? 64 : 1, 1 + draw(8));
    if (t->ranges == 0)
        return;
    put_receiver(t->sender, t->receiver, 0, 0);
    tx[50] = t->kind == 3 ? 0 : 2;
    uint32_t all = 0;
    for (uint32_t i = 0; i < t->ranges; i++) {
        put(tx, 80 + 16 * i, 8, BASE + t->range[i].first * (uint64_t)PAGE);
        put(tx, 80 + 16 * i + 8, 8, t->range[i].count);
        all += t->range[i].count;
    }
    put(tx, 52, 4, 64);
    put(tx, 64, 4, all);
    put(tx, 68, 4, t->ranges);
    size_t length = 80 + 16 * t->ranges;
    if (!call(t->sender, length, functions[t->kind], length, length, 0, FFA_SUCCESS))
        return;
    t->handle = reply.regs[2] | reply.regs[3] << 32;
    mark(t, true);
    live_count++;
}

static void end(struct transaction *t)
{
    mark(t, false);
    *t = live[--live_count];
}

static void retrieve(struct transaction *t)
{
    put_receiver(t->sender, t->receiver, t->kind << 3, t->handle);
    if (!call(t->receiver, 64, FFA_MEM_RETRIEVE_REQ, 64, 64, 0, FFA_MEM_RETRIEVE_RESP))
        return;
    call(t->receiver, 0, FFA_RX_RELEASE, 0, 0, 0, FFA_SUCCESS);
    t->is_retrieved = true;
    if (t->kind != 3)
        return;
    for (uint32_t i = 0; i < t->ranges; i++)
        memset(owners + t->range[i].first, (int)t->receiver, t->range[i].count);
    end(t);
}

static void relinquish(struct transaction *t)
{
    put(tx, 0, 8, t->handle);
    put(tx, 8, 4, 0);
    put(tx, 12, 4, 1);
    put(tx, 16, 2, id(t->receiver));
    if (call(t->receiver, 18, FFA_MEM_RELINQUISH, 0, 0, 0, FFA_SUCCESS))
        t->is_retrieved = false;
}

static void reclaim(struct transaction *t)
{
    if (call(t->sender, 0, FFA_MEM_RECLAIM, t->handle & 0xffffffff, t->handle >> 32, 0, FFA_SUCCESS))
        end(t);
}

static void draw_registers(void)
{
    for (uint32_t i = 0; i < sizeof tx / 8; i++)
        put(tx, 8 * i, 8, draw_word());
    call(draw(partitions), sizeof tx, 0x84000060 + draw(24), draw_word(), 64 + draw(1024), draw_word(), FFA_SUCCESS);
    call(draw(partitions), 0, FFA_RX_RELEASE, 0, 0, 0, FFA_SUCCESS);
}

/* Sends are more often drawn than what ends them, and then less often, by turns. */
static void step(void)
{
    bool fills = calls / 2000 % 2 == 0;
    uint32_t kind = draw(100);
    if (kind < (fills ? 60u : 20u) || live_count == 0) {
        send();
        return;
    }
    struct transaction *t = &live[draw(live_count)];
    if (kind < 75)
        retrieve(t);
    else if (kind < 95)
        t->is_retrieved ? relinquish(t) : reclaim(t);
    else
        draw_registers();
}

/* ---- manifests */

static size_t write_manifest(char *text, size_t room)
{
    size_t at = (size_t)snprintf(text, room, "pool = 0\n");
    uint32_t each = pages / partitions;
    for (uint32_t i = 0; i < partitions; i++) {
        at += (size_t)snprintf(text + at, room - at, "[[partition]]\nid = %u\nquota = 128\n", id(i));
        at += (size_t)snprintf(text + at, room - at,
                               "[[region]]\nbase = %llu\npages = %u\nkind = \"normal\"\nowner = %u\n"
                               "grants = [ { id = %u, data = \"rw\", exec = false } ]\n",
                               (unsigned long long)(BASE + i * (uint64_t)each * PAGE), each, id(i), id(i));
        at += (size_t)snprintf(text + at, room - at,
                               "[[region]]\nbase = %llu\npages = 8\nkind = \"normal\"\nowner = %u\n"
                               "grants = [ { id = %u, data = \"rw\", exec = false } ]\n",
                               (unsigned long long)(BUFFERS + i * UINT64_C(0x200000)), id(i), id(i));
        memset(owners + i * each, (int)i, each);
    }
    memset(is_live, 0, sizeof is_live);
    live_count = 0;
    return at;
}

static void run(uint32_t of_partitions, uint32_t of_pages, uint32_t ranges, uint32_t until)
{
    static char manifest[16384];
    partitions = of_partitions;
    pages = of_pages;
    most_ranges = ranges;
    size_t length = write_manifest(manifest, sizeof manifest);
    uint64_t bound = 0;
    if (ffaspm_heap_bound((const uint8_t *)manifest, length, ranges, &bound) != FFASPM_DONE)
        stop("the bound");
    heap_limit(bound);
    heap_forget();
    if (ffaspm_make(&spm, (const uint8_t *)manifest, length) != FFASPM_DONE)
        stop("the manifest");
    size_t boot = heap_taken();
    for (uint32_t i = 0; i < partitions; i++) {
        uint64_t buffers = BUFFERS + i * UINT64_C(0x200000);
        call(i, 0, FFA_RXTX_MAP, buffers, buffers + 4 * PAGE, 4, FFA_SUCCESS);
    }
    uint32_t most_live = 0;
    while (calls < until) {
        step();
        if (most_live < live_count)
            most_live = live_count;
    }
    printf("%u partitions, %u pages, up to %u ranges: %u calls, %u answered with what was asked for, up to %u live; %zu "
           "bytes after boot, %zu at most, bound %llu\n",
           partitions, pages, ranges, calls, answered_calls, most_live, boot, heap_most(), (unsigned long long)bound);
    if (answered_calls < until / 4)
        stop("too few calls are accepted");
    if (ffaspm_end(&spm) != FFASPM_DONE || heap_taken() != 0)
        stop("bytes are left");
    heap_limit(SIZE_MAX);
}

int main(void)
{
    run(2, 512, 512, 10000);
    run(3, 3072, 512, 30000);
    run(4, 8192, 8, 50000);
    run(8, 32768, 512, 100000);
    printf("%u calls: none was out of memory\n", calls);
    return 0;
}
