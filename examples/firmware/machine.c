/*
 * The machine under EL2: the UART, EL2's own MMU, stage 2 of the partitions, the switch from one partition
 * to another, and the end by PSCI.
 */
#include "el2.h"

/* ---- text (PL011) */

#define UART_DATA (*(volatile uint32_t *)UART)
#define UART_FLAGS (*(volatile uint32_t *)(UART + 0x18))
#define UART_IS_FULL (1u << 5)

void character(char c)
{
    while (UART_FLAGS & UART_IS_FULL)
        ;
    UART_DATA = (uint8_t)c;
}

void text(const char *characters)
{
    while (*characters)
        character(*characters++);
}

void hexadecimal(uint64_t number, int digits)
{
    while (digits-- > 0)
        character("0123456789abcdef"[number >> 4 * digits & 15]);
}

void decimal(uint64_t number)
{
    if (number > 9)
        decimal(number / 10);
    character((char)('0' + number % 10));
}

/* ---- the end */

void power_off(void)
{
    register uint64_t function __asm__("x0") = PSCI_SYSTEM_OFF;
    __asm__ volatile("smc #0" : "+r"(function) : : "memory");
    for (;;)
        DO("wfe");
}

void stop(const char *why)
{
    text("el2: stops: ");
    text(why);
    text("\nel2: failed\n");
    power_off();
}

/* What start.S does with each exception but a synchronous one of a partition. */
void el2_unexpected(uint64_t syndrome, uint64_t at, uint64_t address)
{
    text("el2: ESR ");
    hexadecimal(syndrome, 8);
    text(" ELR ");
    hexadecimal(at, 10);
    text(" FAR ");
    hexadecimal(address, 10);
    text("\n");
    stop("an exception that it does not expect");
}

/* ---- EL2's own translation: the first gigabyte is device memory and the second, the RAM, normal memory,
 * where the core's code may make unaligned accesses; through the same caches as the walkers */

#define BLOCK_1GB 0x441ul /* a block descriptor of level 1 that may be accessed, read-write */
#define DEVICE_NEVER_EXECUTED (1ul << 54)
#define NORMAL_INNER_SHAREABLE (1ul << 2 | 3ul << 8)

void map_own_memory(void)
{
    static uint64_t table[512] __attribute__((aligned(4096)));
    table[0] = 0x00000000ul | BLOCK_1GB | DEVICE_NEVER_EXECUTED;
    table[1] = 0x40000000ul | BLOCK_1GB | NORMAL_INNER_SHAREABLE;
    WRITE(mair_el2, 0xff00);     /* 0: device nGnRnE; 1: normal, write-back */
    WRITE(tcr_el2, 0x80823519u); /* 39 bits, 4 KB, write-back, inner shareable; 40 bits of output */
    WRITE(ttbr0_el2, table);
    DO("dsb sy");
    DO("tlbi alle2");
    DO("ic iallu");
    DO("dsb sy");
    DO("isb");
    WRITE(sctlr_el2, 0x30c51835u); /* M, C and I; A is 0, so unaligned accesses do not fault */
    DO("isb");
}

/* ---- stage 2. Stage 1 stays off: HCR_EL2.DC leaves the kind of memory to stage 2, so that partitions use
 * TX and RX through the same caches as EL2, and TVM traps what would turn it on. */

#define HCR_VM (1ul << 0)
#define HCR_FMO_IMO_AMO (7ul << 3)
#define HCR_DC (1ul << 12)
#define HCR_TSC (1ul << 19)
#define HCR_TVM (1ul << 26)
#define HCR_RW (1ul << 31)

void start_stage_2(void)
{
    WRITE(vtcr_el2, 0x80023559u); /* T0SZ 25, SL0 1, 4 KB, write-back, inner shareable; 40 bits of output */
    WRITE(hcr_el2, HCR_VM | HCR_FMO_IMO_AMO | HCR_DC | HCR_TSC | HCR_TVM | HCR_RW);
    WRITE(sctlr_el1, 0x30d00800u);
    DO("isb");
    DO("tlbi alle1");
    DO("dsb sy");
    DO("isb");
}

/* ---- partitions. Registers of EL1 that are not here are those of stage 1, which are trapped, and of
 * the timers, performance counters and debugging, which this firmware does not keep apart. */

#define SYSTEM_REGISTERS(each)                                                                     \
    each(0, sp_el0) each(1, sp_el1) each(2, elr_el1) each(3, spsr_el1) each(4, vbar_el1)           \
    each(5, cpacr_el1) each(6, tpidr_el0) each(7, tpidr_el1) each(8, tpidrro_el0) each(9, par_el1)
#define SAVE(i, name) current->system[i] = READ(name);
#define RESTORE(i, name) WRITE(name, next->system[i]);

static struct partition nobody;
struct partition *current = &nobody;

void make_partition(struct partition *partition, uint16_t id, uint64_t root, uint64_t vmid)
{
    partition->id = id;
    partition->vttbr = root | vmid << 48;
    partition->context.pc = CODE_OF(id);
    partition->context.pstate = PSTATE_EL1;
    partition->system[1] = DATA_OF(id) + DATA_PAGES * PAGE; /* its stack is at the end of its data */
    partition->system[5] = 3ul << 20;                       /* FP and SIMD are not trapped */
}

void switch_to(struct partition *next)
{
    if (next == current)
        return;
    SYSTEM_REGISTERS(SAVE)
    SYSTEM_REGISTERS(RESTORE)
    WRITE(vttbr_el2, next->vttbr);
    DO("isb");
    current = next;
}
