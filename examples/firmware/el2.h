/*
 * What the parts of EL2 share: the context of a partition, the registers of the processor, the UART.
 */
#ifndef EL2_H
#define EL2_H

#include "ffaspm.h"
#include "map.h"

#define PARTITIONS 3

/* ---- partitions */

/* What a partition has in registers. */
struct context {
    uint64_t x[31];
    uint64_t pc;
    uint64_t pstate;
    uint64_t pad;
    unsigned __int128 v[32];
    uint64_t fpcr;
    uint64_t fpsr;
};

_Static_assert(offsetof(struct context, pc) == 248 && offsetof(struct context, v) == 272 &&
                   offsetof(struct context, fpcr) == 784,
               "start.S has these offsets");

#define PSTATE_EL1 0x3c5u /* EL1 with a stack pointer of its own, all interrupts masked */

struct partition {
    struct context context;
    uint64_t system[10]; /* registers of EL1, in the order of switch_to */
    uint64_t vttbr;
    struct partition *asked_by; /* whose direct request it answers */
    uint16_t id;
    bool waits; /* in FFA_MSG_WAIT, for a direct request */
};

extern struct ffaspm spm;
extern struct partition partitions[PARTITIONS];
extern struct partition *current;

/* ---- the processor */

#define READ(name)                                                                                 \
    ({                                                                                             \
        uint64_t value;                                                                            \
        __asm__ volatile("mrs %0, " #name : "=r"(value));                                          \
        value;                                                                                     \
    })
#define WRITE(name, value) __asm__ volatile("msr " #name ", %0" : : "r"((uint64_t)(value)) : "memory")
#define DO(instruction) __asm__ volatile(instruction : : : "memory")
#define DO_AT(instruction, value) __asm__ volatile(instruction ", %0" : : "r"((uint64_t)(value)) : "memory")

/* Why a partition came to EL2 (Arm ARM, ESR_EL2.EC). */
#define EC_HVC 0x16u
#define EC_FETCH 0x20u
#define EC_DATA 0x24u

static inline uint32_t cause(void) { return READ(esr_el2) >> 26 & 0x3f; }

/* The address of an abort, which is an intermediate physical one, since stage 1 is off. */
static inline uint64_t fault_address(void) { return READ(far_el2); }

/* ---- start.S */

void enter(struct context *context);

/* ---- machine.c */

void character(char c);
void text(const char *characters);
void hexadecimal(uint64_t number, int digits);
void decimal(uint64_t number);
_Noreturn void power_off(void);
_Noreturn void stop(const char *why);
_Noreturn void el2_unexpected(uint64_t syndrome, uint64_t at, uint64_t address);
void map_own_memory(void);
void start_stage_2(void);
void make_partition(struct partition *partition, uint16_t id, uint64_t root, uint64_t vmid);
void switch_to(struct partition *next);

/* ---- check.c */

void check(uint64_t pool);
size_t differences(void);

/* ---- support.c */

extern size_t heap_used, heap_most;
extern bool heap_refuses;
void heap_make(void);
void *memcpy(void *restrict to, const void *restrict from, size_t length);
void *memset(void *to, int byte, size_t length);

#endif
