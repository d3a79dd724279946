/*
 * EL2: makes the core from the manifest, runs the partitions, answers their calls, and replays what the core
 * does to its words on the live tables, which the processor walks (docs/LINKING.md).
 */
#include "el2.h"

struct ffaspm spm;
struct partition partitions[PARTITIONS];
static uint64_t pool;
static uint8_t tx[FFASPM_MOST_RX]; /* a TX buffer has 8 pages at most, as RX */
static uint8_t rx[FFASPM_MOST_RX];

static struct partition *partition_of(uint16_t id)
{
    return id > 0x8000 && id <= 0x8000 + PARTITIONS ? &partitions[id - 0x8001] : NULL;
}

/* ---- the replay: one store, one invalidation or one clear after the other */

/* A walk that sees a later store is to see this one. */
static void set_word(const struct ffaspm_operation *op)
{
    *(volatile uint64_t *)(pool + PAGE * op->page + 8 * op->index) = op->word;
    DO("dmb ishst");
}

static void invalidate(const struct ffaspm_operation *op)
{
#ifndef NO_INVALIDATIONS
    uint64_t before = READ(vttbr_el2);
    WRITE(vttbr_el2, partition_of(op->partition)->vttbr); /* the VMID that TLBI takes */
    DO("isb");
    DO("dsb ishst");
    for (uint64_t i = 0; i < op->count; i++)
        DO_AT("tlbi ipas2e1is", op->address / PAGE + i);
    DO("dsb ish");
    DO("tlbi vmalle1is");
    DO("dsb ish");
    DO("isb");
    WRITE(vttbr_el2, before);
    DO("isb");
#else
    (void)op;
#endif
}

/* The zeros go to memory, so that a reader without caches finds them too. */
static void clear(const struct ffaspm_operation *op)
{
    uint64_t line = 4ul << (READ(ctr_el0) >> 16 & 15);
    uint64_t end = op->address + PAGE * op->count;
    memset((void *)op->address, 0, end - op->address);
    for (uint64_t at = op->address; at < end; at += line)
        DO_AT("dc civac", at);
    DO("dsb ish");
}

static void replay(size_t counts[3])
{
    struct ffaspm_operation op;
    for (size_t index = 0; ffaspm_operation(&spm, index, &op) == FFASPM_DONE; index++) {
        if (op.kind == FFASPM_SET)
            set_word(&op);
        else if (op.kind == FFASPM_INVALIDATE)
            invalidate(&op);
        else
            clear(&op);
        counts[op.kind]++;
    }
    DO("dsb ish");
    DO("isb");
}

/* ---- a call that the core answers */

static size_t refused, refused_with_operations;

static const char *name_of(uint32_t function)
{
    switch (function) {
    case FFA_VERSION: return "FFA_VERSION";
    case FFA_RX_RELEASE: return "FFA_RX_RELEASE";
    case FFA_RXTX_MAP_64: return "FFA_RXTX_MAP";
    case FFA_MEM_DONATE: return "FFA_MEM_DONATE";
    case FFA_MEM_LEND: return "FFA_MEM_LEND";
    case FFA_MEM_SHARE: return "FFA_MEM_SHARE";
    case FFA_MEM_RETRIEVE_REQ: return "FFA_MEM_RETRIEVE_REQ";
    case FFA_MEM_RELINQUISH: return "FFA_MEM_RELINQUISH";
    case FFA_MEM_RECLAIM: return "FFA_MEM_RECLAIM";
    default: return "a call";
    }
}

static void tell(uint32_t function, const size_t counts[3])
{
    text("el2: ");
    hexadecimal(current->id, 4);
    text(" ");
    text(name_of(function));
    text(": stores ");
    decimal(counts[FFASPM_SET]);
    text(", invalidations ");
    decimal(counts[FFASPM_INVALIDATE]);
    text(", clears ");
    decimal(counts[FFASPM_CLEAR]);
    text("\n");
}

/* Copies the TX buffer once: what the partition writes there later is not seen. */
static size_t copy_tx(const struct ffaspm_buffers *pair)
{
    memcpy(tx, (const void *)pair->tx_address, PAGE * pair->tx_pages);
    return PAGE * pair->tx_pages;
}

static void finish_call(uint32_t function, const struct ffaspm_buffers *pair,
                        const struct ffaspm_reply *reply)
{
    size_t counts[3] = {0, 0, 0};
    replay(counts);
    memcpy((void *)pair->rx_address, rx, reply->rx_length);
    if ((uint32_t)reply->regs[0] == FFA_ERROR || (uint32_t)reply->regs[0] == FFA_NOT_SUPPORTED) {
        refused++;
        refused_with_operations += reply->operations != 0;
    } else {
        tell(function, counts);
    }
}

static void call_core(uint64_t *registers)
{
    struct ffaspm_call call = {.caller = current->id};
    struct ffaspm_buffers pair = {0, 0, 0, 0};
    struct ffaspm_reply reply = {{FFA_ERROR, 0, FFA_NO_MEMORY, 0, 0, 0, 0, 0}, 0, 0};
    memcpy(call.regs, registers, sizeof call.regs);
    ffaspm_buffers(&spm, current->id, &pair);
    uint32_t status = ffaspm_handle(&spm, &call, tx, copy_tx(&pair), rx, sizeof rx, &reply);
    heap_refuses = false;
    if (status == FFASPM_DONE)
        finish_call((uint32_t)call.regs[0], &pair, &reply);
    else if (status != FFASPM_NO_MEMORY)
        stop("the core answers a status that it should not");
    memcpy(registers, reply.regs, sizeof reply.regs);
}

/* ---- calls that EL2 serves itself: who runs, and text */

/* The partitions start from the last to the first; each runs until it waits. */
static void wait_for_request(void)
{
    current->waits = true;
    if (current == partitions)
        stop("all partitions wait");
    switch_to(current - 1);
}

static void deliver(struct partition *to)
{
    memcpy(to->context.x, current->context.x, 8 * sizeof(uint64_t));
    switch_to(to);
}

static void refuse(void)
{
    memset(current->context.x, 0, 8 * sizeof(uint64_t));
    current->context.x[0] = FFA_ERROR;
    current->context.x[2] = FFA_DENIED;
}

/* w1 has the sender in its upper half, and the receiver in its lower. */
static void send_request(uint32_t parties)
{
    struct partition *to = partition_of((uint16_t)parties);
    if (parties >> 16 != current->id || to == NULL || !to->waits)
        return refuse();
    to->waits = false;
    to->asked_by = current;
    deliver(to);
}

static void send_response(uint32_t parties)
{
    struct partition *to = current->asked_by;
    if (to == NULL || parties != ((uint32_t)current->id << 16 | to->id))
        return refuse();
    current->waits = true;
    current->asked_by = NULL;
    deliver(to);
}

static void log_text(const uint64_t *registers)
{
    const char *characters = (const char *)&registers[2];
    hexadecimal(current->id, 4);
    text(": ");
    for (size_t i = 0; i < registers[1] && i < 48; i++)
        character(characters[i] >= ' ' && characters[i] <= '~' ? characters[i] : '?');
    text("\n");
}

/* ---- the end */

extern char stack_begin[], stack_end[];

#define PAINT 0x5a

static void paint_stack(void)
{
    char *here = __builtin_frame_address(0);
    memset(stack_begin, PAINT, (size_t)(here - stack_begin) - 1024);
}

static size_t stack_most(void)
{
    const char *at = stack_begin;
    while (*at == PAINT)
        at++;
    return (size_t)(stack_end - at);
}

static void size(const char *what, size_t bytes)
{
    text("size: ");
    text(what);
    text(" ");
    decimal(bytes);
    text("\n");
}

static size_t heap_at_boot;

static void finish(void)
{
    text("el2: ");
    decimal(refused);
    text(" calls were refused, ");
    decimal(refused_with_operations);
    text(" of them with operations\n");
    size("heap after boot", heap_at_boot);
    size("heap at most", heap_most);
    size("stack at most", stack_most());
    text(differences() + refused_with_operations == 0 ? "el2: passed\n" : "el2: failed\n");
    power_off();
}

/* ---- exceptions of partitions */

static void serve(void)
{
    uint64_t *registers = current->context.x;
    switch ((uint32_t)registers[0]) {
    case FFA_MSG_WAIT: return wait_for_request();
    case FFA_MSG_SEND_DIRECT_REQ_64: return send_request((uint32_t)registers[1]);
    case FFA_MSG_SEND_DIRECT_RESP_64: return send_response((uint32_t)registers[1]);
    case FFA_CONSOLE_LOG_64: return log_text(registers);
    case CHECK: return check(pool);
    case STARVE: heap_refuses = true; return;
    case PSCI_SYSTEM_OFF: return finish();
    default: return call_core(registers);
    }
}

static void tell_fault(const char *what)
{
    text("el2: ");
    hexadecimal(current->id, 4);
    text(what);
    hexadecimal(fault_address(), 10);
    text(": stage 2 fault\n");
}

/* A partition that may not read or write a page goes on behind the instruction. */
static void skip_access(void)
{
    tell_fault(READ(esr_el2) >> 6 & 1 ? " may not write " : " may not read ");
    current->context.pc += 4;
}

/* One that may not execute a page goes on as if the function there had returned. */
static void skip_function(void)
{
    tell_fault(" may not execute ");
    if (fault_address() == current->context.x[30])
        stop("a partition that has nowhere to go on");
    current->context.pc = current->context.x[30];
}

static void take_exception(void)
{
    if (cause() == EC_HVC)
        serve();
    else if (cause() == EC_DATA)
        skip_access();
    else if (cause() == EC_FETCH)
        skip_function();
    else
        el2_unexpected(READ(esr_el2), current->context.pc, READ(far_el2));
}

/* ---- boot */

extern const uint8_t manifest_begin[], manifest_end[];

static void make_core(void)
{
    if (ffaspm_make(&spm, manifest_begin, (size_t)(manifest_end - manifest_begin)) != FFASPM_DONE)
        stop("the manifest has a fault, or there is no memory");
    heap_at_boot = heap_used;
}

static void fill_page(uint32_t page)
{
    for (uint32_t index = 0; index < 512; index++) {
        uint64_t word;
        if (ffaspm_word(&spm, page, index, &word) != FFASPM_DONE)
            stop("no word");
        *(volatile uint64_t *)(pool + PAGE * page + 8 * index) = word;
    }
}

/* Fills the live tables before any partition runs. They are where the manifest says, since table
 * descriptors hold these addresses. */
static void fill_live_tables(void)
{
    uint32_t pages;
    if (ffaspm_pool(&spm, &pool, &pages) != FFASPM_DONE || pool < TABLES || pool + PAGE * pages > IMAGE)
        stop("the pool is not in the memory of the live tables");
    for (uint32_t page = 0; page < pages; page++)
        fill_page(page);
    DO("dsb ish");
    text("el2: live tables of ");
    decimal(pages);
    text(" pages at ");
    hexadecimal(pool, 10);
    text("\n");
}

/* The manifest keeps regions apart from the pool alone, so EL2 sees to it that its image is in none. */
static void keep_image(void)
{
    for (uint64_t at = IMAGE; at < (uint64_t)stack_end; at += PAGE) {
        uint16_t owner;
        if (ffaspm_owner(&spm, at, &owner) != FFASPM_NOTHING_THERE)
            stop("a partition owns a page of EL2's image");
    }
}

static void make_partitions(void)
{
    for (uint16_t i = 0; i < PARTITIONS; i++) {
        uint32_t page;
        if (ffaspm_root(&spm, (uint16_t)(0x8001 + i), &page) != FFASPM_DONE)
            stop("a partition that the manifest does not have");
        make_partition(&partitions[i], (uint16_t)(0x8001 + i), pool + PAGE * page, i + 1u);
    }
}

void el2_main(void)
{
    map_own_memory();
    paint_stack();
    heap_make();
    make_core();
    keep_image();
    fill_live_tables();
    make_partitions();
    start_stage_2();
    switch_to(&partitions[PARTITIONS - 1]);
    for (;;) {
        enter(&current->context);
        take_exception();
    }
}
