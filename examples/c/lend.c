/*
 * The life of a lend, from the manifest in a file: two partitions register their buffers, the first lends a
 * page to the second, which retrieves it, gives it back cleared, and the first takes it back. The program
 * plays the firmware: it copies TX, replays the operations on live tables of its own, and compares them with
 * the manager's words.
 */
#include "ffaspm.h"
#include "descriptor.h"
#include "heap.h"
#include <inttypes.h>
#include <stdio.h>
#include <stdlib.h>
#include <string.h>

#define PAGE 4096
#define LENT 0x80001000u /* the second page of the first block of 8001 */
#define HANDLE_LOW 0x00000001u
#define HANDLE_HIGH 0x00008001u

static struct ffaspm spm;
static uint8_t tx[PAGE];
static uint8_t rx[PAGE];

/* ---- the live tables, which the processor would walk */

static uint64_t (*live)[512];
static uint32_t live_pages;

static void fill_live_tables(void)
{
    uint64_t address;
    if (ffaspm_pool(&spm, &address, &live_pages) != FFASPM_DONE)
        exit(1);
    live = calloc(live_pages, sizeof *live);
    if (live == NULL)
        exit(1);
    for (uint32_t page = 0; page < live_pages; page++)
        for (uint32_t index = 0; index < 512; index++)
            if (ffaspm_word(&spm, page, index, &live[page][index]) != FFASPM_DONE)
                exit(1);
    printf("pool %010" PRIx64 " %" PRIu32 "\n", address, live_pages);
}

/* One 64-bit store, or one invalidation, or one clear: here the first alone has something to change. */
static void replay(const struct ffaspm_operation *op)
{
    if (op->kind == FFASPM_SET)
        live[op->page][op->index] = op->word;
}

static void compare_live_tables(void)
{
    uint32_t differ = 0;
    for (uint32_t page = 0; page < live_pages; page++)
        for (uint32_t index = 0; index < 512; index++) {
            uint64_t word;
            if (ffaspm_word(&spm, page, index, &word) != FFASPM_DONE)
                exit(1);
            differ += word != live[page][index];
        }
    printf("live tables: %" PRIu32 " words differ\n", differ);
}

/* ---- text */

static void print_operation(const struct ffaspm_operation *op)
{
    if (op->kind == FFASPM_SET)
        printf("set %" PRIu32 " %" PRIu32 " %016" PRIx64 "\n", op->page, op->index, op->word);
    else if (op->kind == FFASPM_INVALIDATE)
        printf("inv %04x %010" PRIx64 " %" PRIu32 "\n", op->partition, op->address, op->count);
    else
        printf("clear %010" PRIx64 " %" PRIu32 "\n", op->address, op->count);
}

/* All operations are replayed; of a long list the first four and the last three are printed. */
static void take_operations(size_t count)
{
    printf("ops %zu\n", count);
    struct ffaspm_operation op;
    size_t index = 0;
    while (ffaspm_operation(&spm, index, &op) == FFASPM_DONE) {
        replay(&op);
        if (count <= 8 || index < 4 || index + 3 >= count)
            print_operation(&op);
        else if (index == 4)
            puts("..");
        index++;
    }
    if (index != count)
        printf("wrong count: %zu\n", index);
}

static void look(uint16_t partition, uint64_t address)
{
    uint32_t access;
    uint32_t status = ffaspm_translate(&spm, partition, address, &access);
    if (status != FFASPM_DONE)
        printf("translate %04x %010" PRIx64 " status %" PRIu32 "\n", partition, address, status);
    else
        printf("translate %04x %010" PRIx64 " %c%c%c %s\n", partition, address,
               access & FFASPM_READ ? 'r' : '-', access & FFASPM_WRITE ? 'w' : '-',
               access & FFASPM_EXECUTE ? 'x' : '-', access & FFASPM_DEVICE ? "device" : "normal");
}

static void print_reply(const struct ffaspm_reply *reply)
{
    printf("reply");
    for (int i = 0; i < 8; i++)
        printf(" %08" PRIx64, reply->regs[i]);
    printf("\n");
    if (reply->rx_length > 0) {
        printf("rx ");
        for (size_t i = 0; i < reply->rx_length; i++)
            printf("%02x", rx[i]);
        printf("\n");
    }
}

/* ---- calls */

static uint32_t call(const char *name, uint16_t caller, size_t tx_length, size_t rx_room,
                     uint64_t w0, uint64_t w1, uint64_t w2, uint64_t w3)
{
    struct ffaspm_call words = {{w0, w1, w2, w3, 0, 0, 0, 0}, caller};
    struct ffaspm_reply reply;
    printf("%s of %04x\n", name, caller);
    uint32_t status = ffaspm_handle(&spm, &words, tx, tx_length, rx, rx_room, &reply);
    if (status == FFASPM_DONE) {
        print_reply(&reply);
        take_operations(reply.operations);
    } else {
        printf("status %" PRIu32 "\n", status);
    }
    return status;
}

/* One page of `sender`, which `receiver` may read and write. */
static void put_lend(uint16_t sender, uint16_t receiver, uint64_t address)
{
    memset(tx, 0, sizeof tx);
    put_header(tx, sender, 0, 0, 0, 1);
    put(tx, 48, 2, receiver);
    put(tx, 50, 1, 2);
    put(tx, 52, 4, 64);
    put(tx, 64, 4, 1);
    put(tx, 68, 4, 1);
    put(tx, 80, 8, address);
    put(tx, 88, 4, 1);
}

/* What was lent is to be read and written. */
static void put_retrieve(uint16_t sender, uint16_t receiver, uint64_t handle)
{
    memset(tx, 0, sizeof tx);
    put_header(tx, sender, 0, 2u << 3, handle, 1);
    put(tx, 48, 2, receiver);
    put(tx, 50, 1, 2);
}

static void put_relinquish(uint16_t receiver, uint64_t handle, uint32_t flags)
{
    memset(tx, 0, sizeof tx);
    put(tx, 0, 8, handle);
    put(tx, 8, 4, flags);
    put(tx, 12, 4, 1);
    put(tx, 16, 2, receiver);
}

static void register_buffers(uint16_t partition, uint64_t address)
{
    call("FFA_RXTX_MAP", partition, 0, 0, FFA_RXTX_MAP, address, address + PAGE, 1);
    struct ffaspm_buffers pair;
    if (ffaspm_buffers(&spm, partition, &pair) == FFASPM_DONE)
        printf("buffers %010" PRIx64 " %" PRIu32 " %010" PRIx64 " %" PRIu32 "\n", pair.tx_address,
               pair.tx_pages, pair.rx_address, pair.rx_pages);
}

static void lend(void)
{
    put_lend(0x8001, 0x8002, LENT);
    heap_allow(0);
    call("FFA_MEM_LEND without memory", 0x8001, 96, sizeof rx, FFA_MEM_LEND, 96, 96, 0);
    look(0x8001, LENT);
    heap_allow(SIZE_MAX);
    call("FFA_MEM_LEND", 0x8001, 96, sizeof rx, FFA_MEM_LEND, 96, 96, 0);
    look(0x8001, LENT);
    look(0x8001, LENT + PAGE);
    look(0x8002, LENT);
    call("FFA_MEM_LEND again", 0x8001, 96, sizeof rx, FFA_MEM_LEND, 96, 96, 0);
}

static void retrieve(void)
{
    put_retrieve(0x8001, 0x8002, (uint64_t)HANDLE_HIGH << 32 | HANDLE_LOW);
    call("FFA_MEM_RETRIEVE_REQ with too little room", 0x8002, 64, PAGE - 1, FFA_MEM_RETRIEVE_REQ, 64, 64, 0);
    call("FFA_MEM_RETRIEVE_REQ", 0x8002, 64, sizeof rx, FFA_MEM_RETRIEVE_REQ, 64, 64, 0);
    look(0x8001, LENT);
    look(0x8002, LENT);
    uint16_t owner;
    if (ffaspm_owner(&spm, LENT, &owner) == FFASPM_DONE)
        printf("owner %010" PRIx64 " %04x\n", (uint64_t)LENT, owner);
}

static void give_back(void)
{
    put_relinquish(0x8002, (uint64_t)HANDLE_HIGH << 32 | HANDLE_LOW, 1);
    call("FFA_MEM_RELINQUISH with a clear", 0x8002, 18, sizeof rx, FFA_MEM_RELINQUISH, 0, 0, 0);
    look(0x8002, LENT);
    call("FFA_MEM_RECLAIM", 0x8001, 0, sizeof rx, FFA_MEM_RECLAIM, HANDLE_LOW, HANDLE_HIGH, 0);
    look(0x8001, LENT);
}

static void print_roots(void)
{
    for (uint16_t partition = 0x8001; partition <= 0x8004; partition++) {
        uint32_t page;
        uint32_t status = ffaspm_root(&spm, partition, &page);
        if (status == FFASPM_DONE)
            printf("root %04x %" PRIu32 "\n", partition, page);
        else
            printf("root %04x status %" PRIu32 "\n", partition, status);
    }
    printf("word 0 2 %016" PRIx64 "\n", live[0][2]);
    printf("word 5 0 %016" PRIx64 "\n", live[5][0]);
}

static void change_version(void)
{
    uint32_t version = 0;
    ffaspm_version(&spm, 0x8003, &version);
    printf("version 8003 %08" PRIx32 "\n", version);
    call("FFA_VERSION", 0x8003, 0, 0, FFA_VERSION, FFA_VERSION_1_0, 0, 0);
    ffaspm_version(&spm, 0x8003, &version);
    printf("version 8003 %08" PRIx32 "\n", version);
}

/* ---- the manager */

static void make(const char *name)
{
    static uint8_t document[65536];
    FILE *file = fopen(name, "rb");
    if (file == NULL) {
        perror(name);
        exit(1);
    }
    size_t length = fread(document, 1, sizeof document, file);
    fclose(file);
    printf("translate before make: status %" PRIu32 "\n",
           ffaspm_translate(&spm, 0x8001, LENT, &(uint32_t){0}));
    printf("make of nothing: status %" PRIu32 "\n", ffaspm_make(&spm, document, 0));
    printf("make of half: status %" PRIu32 "\n", ffaspm_make(&spm, (const uint8_t *)"pool = ", 7));
    printf("make: status %" PRIu32 "\n", ffaspm_make(&spm, document, length));
    printf("make again: status %" PRIu32 "\n", ffaspm_make(&spm, document, length));
}

int main(int words, char **word)
{
    if (words != 2)
        return fputs("usage: lend MANIFEST\n", stderr), 2;
    make(word[1]);
    fill_live_tables();
    print_roots();
    register_buffers(0x8001, 0x90000000);
    register_buffers(0x8002, 0xb0000000);
    look(0x8001, LENT);
    look(0x8001, 0x09000000);
    look(0x8001, (uint64_t)1 << 39);
    lend();
    retrieve();
    give_back();
    change_version();
    compare_live_tables();
    free(live);
    printf("end: status %" PRIu32 "\n", ffaspm_end(&spm));
    printf("end again: status %" PRIu32 "\n", ffaspm_end(&spm));
    printf("heap: %zu rooms left\n", heap_taken());
    return 0;
}
