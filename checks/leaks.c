/*
 * Leaks: a manager is made and ended 1,000 times over a heap that counts bytes. When it ends it has live transactions,
 * one of which is retrieved, and a completed donation, and two calls were refused: one by FFA_ERROR, and one for want
 * of memory. Then no byte may be left. Each life has more ranges than the one before, up to 500 and from 1 again.
 */
#include "counted_heap.h"
#include "descriptor.h"
#include "ffaspm.h"
#include <stdio.h>
#include <stdlib.h>
#include <string.h>

#define LIVES 1000
#define PAGE 4096
#define MOST_RANGES 500

static struct ffaspm spm;
static uint8_t tx[4 * PAGE];
static uint8_t rx[4 * PAGE];
static struct ffaspm_reply reply;

static void stop(const char *why)
{
    fprintf(stderr, "checks/leaks: %s\n", why);
    exit(1);
}

/* ---- calls (FF-A 1.1, "Memory transaction descriptor") */

static void put_receiver(uint32_t flags, uint64_t handle, uint8_t permissions)
{
    memset(tx, 0, sizeof tx);
    put_header(tx, 0x8001, 0, flags, handle, 1);
    put(tx, 48, 2, 0x8002);
    put(tx, 50, 1, permissions);
}

static uint32_t call(uint16_t caller, size_t length, uint64_t w0, uint64_t w1, uint64_t w2, uint64_t w3)
{
    struct ffaspm_call call = {{w0, w1, w2, w3, 0, 0, 0, 0}, caller};
    return ffaspm_handle(&spm, &call, tx, length, rx, sizeof rx, &reply);
}

static void answered(uint32_t status, uint32_t w0, const char *what)
{
    if (status != FFASPM_DONE || reply.regs[0] != w0)
        stop(what);
}

/* Sends so many single pages of 0x8001 to 0x8002, each two pages behind the one before. */
static uint32_t send(uint32_t function, uint8_t permissions, uint64_t address, uint32_t ranges)
{
    put_receiver(0, 0, permissions);
    put(tx, 52, 4, 64);
    put(tx, 64, 4, ranges);
    put(tx, 68, 4, ranges);
    for (uint32_t i = 0; i < ranges; i++) {
        put(tx, 80 + 16 * i, 8, address + 2 * i * (uint64_t)PAGE);
        put(tx, 80 + 16 * i + 8, 4, 1);
    }
    size_t length = 80 + 16 * ranges;
    return call(0x8001, length, function, length, length, 0);
}

/* `kind`: 2 of a lend, 3 of a donation. */
static void retrieve(uint64_t handle, uint32_t kind, uint8_t permissions)
{
    put_receiver(kind << 3, handle, permissions);
    answered(call(0x8002, 64, FFA_MEM_RETRIEVE_REQ, 64, 64, 0), FFA_MEM_RETRIEVE_RESP, "a retrieve");
}

static uint64_t sent(uint32_t function, uint8_t permissions, uint64_t address, uint32_t ranges)
{
    answered(send(function, permissions, address, ranges), FFA_SUCCESS, "a send");
    return reply.regs[2] | reply.regs[3] << 32;
}

static void live(uint32_t ranges)
{
    answered(call(0x8001, 0, FFA_RXTX_MAP, 0x90000000, 0x90004000, 4), FFA_SUCCESS, "buffers");
    answered(call(0x8002, 0, FFA_RXTX_MAP, 0xb0000000, 0xb0004000, 4), FFA_SUCCESS, "buffers");
    retrieve(sent(FFA_MEM_LEND, 2, 0x80000000, ranges), 2, 2);
    answered(call(0x8002, 0, FFA_RX_RELEASE, 0, 0, 0), FFA_SUCCESS, "a release");
    retrieve(sent(FFA_MEM_DONATE, 0, 0x80800000, ranges), 3, 1);
    sent(FFA_MEM_LEND, 2, 0x81000000, ranges);
    answered(send(FFA_MEM_LEND, 2, 0x80000000, ranges), FFA_ERROR, "pages that are lent");
    heap_limit(heap_taken());
    if (send(FFA_MEM_LEND, 2, 0x82000000, ranges) != FFASPM_NO_MEMORY)
        stop("a send without memory");
    heap_limit(SIZE_MAX);
}

int main(void)
{
    static const char manifest[] =
        "pool = 0x40000000\n"
        "[[partition]]\nid = 0x8001\nquota = 64\n"
        "[[partition]]\nid = 0x8002\nquota = 64\n"
        "[[region]]\nbase = 0x80000000\npages = 65544\nkind = \"normal\"\nowner = 0x8001\n"
        "grants = [ { id = 0x8001, data = \"rw\", exec = false } ]\n"
        "[[region]]\nbase = 0xb0000000\npages = 8\nkind = \"normal\"\nowner = 0x8002\n"
        "grants = [ { id = 0x8002, data = \"rw\", exec = false } ]\n";
    for (uint32_t i = 0; i < LIVES; i++) {
        if (ffaspm_make(&spm, (const uint8_t *)manifest, sizeof manifest - 1) != FFASPM_DONE)
            stop("the manifest");
        live(i % MOST_RANGES + 1);
        if (ffaspm_end(&spm) != FFASPM_DONE)
            stop("an end");
        if (heap_taken() != 0) {
            fprintf(stderr, "checks/leaks: %zu bytes are left of life %u\n", heap_taken(), i + 1);
            return 1;
        }
    }
    printf("%d managers made and ended: no byte is left\n", LIVES);
    return 0;
}
