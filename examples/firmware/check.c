/*
 * What the processor lets each partition reach, against what the core says. Each page of a list is
 * asked in two ways: by AT, which walks the live tables, and by a load, a store and a fetch at EL1, which may
 * find what a TLB kept.
 */
#include "el2.h"

/* ---- a walk (Arm ARM, "AT S12E1R", "AT S12E1W", PAR_EL1) */

static bool is_given(uint64_t par, uint64_t page)
{
    return !(par & 1) && (par & 0xfffffffff000ul) == page;
}

static uint32_t by_walk(uint64_t page)
{
    DO_AT("at s12e1r", page);
    DO("isb");
    uint64_t read = READ(par_el1);
    DO_AT("at s12e1w", page);
    DO("isb");
    uint64_t write = READ(par_el1);
    uint32_t device = read >> 60 == 0 ? FFASPM_DEVICE : 0; /* the upper half of the attributes is 0 */
    return (is_given(read, page) ? FFASPM_READ | device : 0) | (is_given(write, page) ? FFASPM_WRITE : 0);
}

/* ---- an access at EL1, to the last word of a page */

#define LAST_WORD 0xffc
#define HVC_1 0xd4000022u

/* Runs an instruction of the partition that is followed by `hvc #1`, or is one. */
static bool reaches(uint64_t instruction, uint64_t address, uint32_t value)
{
    static struct context probe;
    probe.x[0] = value;
    probe.x[1] = address;
    probe.pc = instruction;
    probe.pstate = PSTATE_EL1;
    enter(&probe);
    if (cause() == EC_HVC && (READ(esr_el2) & 0xffff) == 1)
        return true;
    if ((cause() != EC_DATA && cause() != EC_FETCH) || fault_address() != address)
        stop("a probe went astray");
    return false;
}

static void write_code(volatile uint32_t *at, uint32_t instruction)
{
    *at = instruction;
    DO_AT("dc cvau", at);
    DO("dsb ish");
    DO_AT("ic ivau", at);
    DO("dsb ish");
    DO("isb");
}

/* For the fetch EL2 puts `hvc #1` there, but not in devices, in the live tables and in its own image. */
static bool is_fetched(uint64_t address)
{
    if (address < CODE_OF(0x8001))
        return reaches(address, address, 0);
    volatile uint32_t *word = (volatile uint32_t *)address;
    uint32_t before = *word;
    write_code(word, HVC_1);
    bool fetched = reaches(address, address, 0);
    write_code(word, before);
    return fetched;
}

static uint32_t by_access(uint64_t page)
{
    uint64_t at = page + LAST_WORD;
    bool read = reaches(PROBE_LOAD(current->id), at, 0);
    bool write = reaches(PROBE_STORE(current->id), at, *(volatile uint32_t *)at);
    return (read ? FFASPM_READ : 0) | (write ? FFASPM_WRITE : 0) | (is_fetched(at) ? FFASPM_EXECUTE : 0);
}

/* ---- the comparison */

/* clang-format off */
static const uint64_t looked_at[] = {
    CODE_OF(0x8001), LAST_CODE, LAST_CODE + PAGE, TX_OF(0x8001), RX_OF(0x8001),
    LENT, SHARED, GIVEN, HELD, DATA_OF(0x8001) + 15 * PAGE, DATA_OF(0x8001) + 16 * PAGE,
    BLOCK - PAGE, BLOCK, BLOCK_LENT - PAGE, BLOCK_LENT, BLOCK_LENT + PAGE, BLOCK_KEPT,
    BLOCK + 511 * PAGE, BLOCK + 512 * PAGE,
    CODE_OF(0x8002), TX_OF(0x8002), RX_OF(0x8002), DATA_OF(0x8002), DATA_OF(0x8002) + 15 * PAGE,
    CODE_OF(0x8003), TX_OF(0x8003), RX_OF(0x8003), DATA_OF(0x8003), DATA_OF(0x8003) + 15 * PAGE,
    UART, CLOCK, RAM, TABLES, TABLES + 26 * PAGE, IMAGE,
};
/* clang-format on */

static size_t checks, walks_differ, accesses_differ, words_differ;

size_t differences(void) { return walks_differ + accesses_differ + words_differ; }

static void tell_access(const char *of, uint32_t access)
{
    text(of);
    character(access & FFASPM_READ ? 'r' : '-');
    character(access & FFASPM_WRITE ? 'w' : '-');
    character(access & FFASPM_EXECUTE ? 'x' : '-');
    character(access & FFASPM_DEVICE ? 'd' : '-');
}

static void compare(uint64_t page)
{
    uint32_t core;
    if (ffaspm_translate(&spm, current->id, page, &core) != FFASPM_DONE)
        stop("no translation");
    uint32_t walk = by_walk(page);
    uint32_t access = by_access(page);
    bool walks = walk == (core & ~FFASPM_EXECUTE);
    bool accesses = access == (core & ~FFASPM_DEVICE);
    walks_differ += !walks;
    accesses_differ += !accesses;
    if (walks && accesses)
        return;
    text("el2: DIFFERENCE: ");
    hexadecimal(current->id, 4);
    text(" at ");
    hexadecimal(page, 10);
    tell_access(": core ", core);
    tell_access(", walk ", walk);
    tell_access(", access ", access);
    text("\n");
}

static void compare_as(struct partition *partition)
{
    switch_to(partition);
    for (size_t i = 0; i < sizeof looked_at / sizeof looked_at[0]; i++)
        compare(looked_at[i]);
}

/* The partition that runs comes first, before a switch can drop what a TLB kept of it. */
static void compare_pages(void)
{
    struct partition *caller = current;
    for (size_t i = 0; i < PARTITIONS; i++)
        compare_as(&partitions[((size_t)(caller - partitions) + i) % PARTITIONS]);
    switch_to(caller);
}

/* Compares a page of the live tables with the core's words, and adds it to a sum. */
static uint64_t compare_words(const volatile uint64_t *live, uint32_t page, uint64_t sum)
{
    for (uint32_t index = 0; index < 512; index++) {
        uint64_t word = 0;
        ffaspm_word(&spm, page, index, &word);
        words_differ += word != live[index];
        sum = (sum ^ live[index]) * 0x100000001b3;
    }
    return sum;
}

static uint64_t compare_tables(uint64_t pool)
{
    uint64_t sum = 0, address;
    uint32_t pages = 0;
    ffaspm_pool(&spm, &address, &pages);
    for (uint32_t page = 0; page < pages; page++)
        sum = compare_words((const volatile uint64_t *)(pool + PAGE * page), page, sum);
    return sum;
}

/* Whether the level 2 descriptor of 0x8001's block is one of a block. */
static bool is_block(void)
{
    const uint64_t *root = (const uint64_t *)(partitions[0].vttbr & 0xfffffffff000);
    const uint64_t *level_2 = (const uint64_t *)(root[BLOCK >> 30] & 0xfffffffff000);
    return (level_2[BLOCK >> 21 & 511] & 3) == 1;
}

static void tell_owners(void)
{
    static const uint64_t pages[] = {LENT, SHARED, GIVEN};
    text("owners");
    for (size_t i = 0; i < 3; i++) {
        uint16_t owner = 0;
        ffaspm_owner(&spm, pages[i], &owner);
        text(" ");
        hexadecimal(owner, 4);
    }
}

void check(uint64_t pool)
{
    static uint64_t sum_before;
    compare_pages();
    uint64_t sum = compare_tables(pool);
    text("el2: check ");
    decimal(++checks);
    text(": differ: walks ");
    decimal(walks_differ);
    text(", accesses ");
    decimal(accesses_differ);
    text(", words ");
    decimal(words_differ);
    text("; tables ");
    text(sum == sum_before ? "as before; block " : "changed; block ");
    text(is_block() ? "whole; " : "split; ");
    tell_owners();
    text("\n");
    sum_before = sum;
}
