/*
 * ffaspm: the memory-sharing core of a secure partition manager, for C.
 *
 * It answers the memory-sharing calls of Arm FF-A 1.1 (DEN0077A) and keeps the stage 2 translation
 * tables of the partitions (Arm ARM, VMSAv8-64, 4 KB granule, input addresses of 39 bits, walked from
 * level 1). Each function's contract is proved in crates/ffaspm_c/src; docs/LINKING.md says what the
 * program that links it owes.
 *
 * Rules for all functions:
 *
 * - One call at a time. There is no global state, so two managers are independent of each other, but
 *   the functions on one `struct ffaspm` must not overlap: one lock round each call and what the caller
 *   does with its operations, where there are several processors. None may be called from an interrupt
 *   or signal handler that can interrupt another of them.
 * - A `struct ffaspm` whose bytes are all 0 holds no manager. The program gives the room for it, and
 *   neither reads, writes nor copies what stands in it. What it holds lies on the heap, and is the
 *   library's until `ffaspm_end`.
 * - All other pointers are borrowed for the call alone. None may be NULL, and none may overlap another
 *   that the function writes through. Where a length is 0 the pointer is still one to an object.
 * - A function that does not answer FFASPM_DONE writes nothing through its other pointers.
 * - Addresses are intermediate physical addresses in bytes, and begin a page where a page is named.
 *   Pages have 4,096 bytes. Partition identifiers have 16 bits (FF-A 1.1, "Partition identification
 *   and discovery").
 */
#ifndef FFASPM_H
#define FFASPM_H

#include <stdbool.h>
#include <stddef.h>
#include <stdint.h>

#ifdef __cplusplus
extern "C" {
#endif

/* ---- What the functions answer ---------------------------------------------------------------- */

#define FFASPM_DONE 0u

/* 1 to 10: the first rule that a manifest breaks, over the whole document (docs/MANIFEST.md). */
#define FFASPM_FAULT_NOT_TOML 1u            /* no TOML document */
#define FFASPM_FAULT_KEY 2u                 /* a key is unknown or missing */
#define FFASPM_FAULT_VALUE 3u               /* a value of another type or text */
#define FFASPM_FAULT_LIMIT 4u               /* a number outside its limits */
#define FFASPM_FAULT_IDENTIFIER 5u          /* an identifier stands twice or names no partition */
#define FFASPM_FAULT_OVERLAP 6u             /* a page of two regions, or of a region and the pool */
#define FFASPM_FAULT_OWNER_WITHOUT_GRANT 7u /* a region grants its owner nothing */
#define FFASPM_FAULT_SECOND_GRANT 8u        /* two grants of one partition in a region */
#define FFASPM_FAULT_EXECUTABLE_DEVICE 9u   /* a device region is granted to be executed */
#define FFASPM_FAULT_QUOTA 10u              /* fewer table pages than the grants need */

#define FFASPM_NO_MEMORY 11u     /* rattle_alloc or rattle_realloc refused; nothing was changed */
#define FFASPM_NOT_MADE 12u      /* the struct holds no manager */
#define FFASPM_MADE_ALREADY 13u  /* the struct holds a manager */
#define FFASPM_RX_SHORT 14u      /* less room than the caller's RX buffer has; nothing was changed */
#define FFASPM_NOTHING_THERE 15u /* no such page, owner, partition, buffer or operation */

/* ---- FF-A 1.1: function identifiers ("Function identifiers") ----------------------------------- */

#define FFA_ERROR 0x84000060u
#define FFA_SUCCESS 0x84000061u
#define FFA_VERSION 0x84000063u
#define FFA_FEATURES 0x84000064u
#define FFA_RX_RELEASE 0x84000065u
#define FFA_RXTX_MAP 0x84000066u
#define FFA_RXTX_MAP_64 0xc4000066u
#define FFA_RXTX_UNMAP 0x84000067u
#define FFA_ID_GET 0x84000069u
#define FFA_MEM_DONATE 0x84000071u
#define FFA_MEM_DONATE_64 0xc4000071u
#define FFA_MEM_LEND 0x84000072u
#define FFA_MEM_LEND_64 0xc4000072u
#define FFA_MEM_SHARE 0x84000073u
#define FFA_MEM_SHARE_64 0xc4000073u
#define FFA_MEM_RETRIEVE_REQ 0x84000074u
#define FFA_MEM_RETRIEVE_REQ_64 0xc4000074u
#define FFA_MEM_RETRIEVE_RESP 0x84000075u
#define FFA_MEM_RELINQUISH 0x84000076u
#define FFA_MEM_RECLAIM 0x84000077u

/* FF-A 1.1: status codes in w2 of FFA_ERROR ("Status codes"), as numbers of 32 bits. NOT_SUPPORTED is
 * also what FFA_VERSION answers in w0. */
#define FFA_NOT_SUPPORTED 0xffffffffu      /* -1 */
#define FFA_INVALID_PARAMETERS 0xfffffffeu /* -2 */
#define FFA_NO_MEMORY 0xfffffffdu          /* -3 */
#define FFA_BUSY 0xfffffffcu               /* -4 */
#define FFA_DENIED 0xfffffffau             /* -6 */

/* Versions of FF-A, as ffaspm_version gives them and FFA_VERSION takes them in w1. */
#define FFA_VERSION_1_0 0x00010000u
#define FFA_VERSION_1_1 0x00010001u

/* Bits of the access that ffaspm_translate gives. */
#define FFASPM_READ 1u
#define FFASPM_WRITE 2u
#define FFASPM_EXECUTE 4u
#define FFASPM_DEVICE 8u /* device memory, nGnRE; without it normal memory, write-back */

/* The most bytes that a partition's RX buffer has (8 pages): room for any response. */
#define FFASPM_MOST_RX 32768u

/* ---- The manager ------------------------------------------------------------------------------ */

/* A manager, or none where all bytes are 0. Private: its members are the library's. */
struct ffaspm {
    void *private_at;
    bool private_made;
};

/*
 * Makes the manager of a manifest: a TOML document in UTF-8 of `length` bytes (docs/MANIFEST.md).
 * Partitions then reach what the manifest grants them, and no call was answered.
 *
 * The words of the tables stand in one room of the heap, of 4,096 bytes for each page of the pool. This
 * function writes there the pages of the roots and of the tables that the grants need, and a later call each
 * page that it takes for the first time. The memory of a page that was never taken is not touched, and holds
 * what was there before. These words are the library's own, and no processor walks them: the live tables are
 * the program's (docs/LINKING.md, "The replay").
 *
 * FFASPM_DONE; FFASPM_MADE_ALREADY; 1 to 10, the document's first fault; FFASPM_NO_MEMORY, which may
 * come in place of any fault. Where it is not FFASPM_DONE, the struct is as it was.
 */
uint32_t ffaspm_make(struct ffaspm *spm, const uint8_t *document, size_t length);

/*
 * Ends the manager, and gives back all its memory. The struct then holds none.
 *
 * FFASPM_DONE; FFASPM_NOT_MADE.
 */
uint32_t ffaspm_end(struct ffaspm *spm);

/*
 * The most bytes of heap that the manager of a manifest ever has, from ffaspm_make on, where no call has more
 * than `ranges` ranges. A call may have 512, so with 512 it holds whatever calls come: with a heap of so many bytes
 * none is answered with FFASPM_NO_MEMORY. Bytes that a heap takes for its own use, or loses between its rooms, are
 * not counted. The sum is tested, and not proved (docs/LINKING.md, "Memory").
 *
 * FFASPM_DONE; 1 to 10, the document's first fault; FFASPM_NO_MEMORY, which may come in place of any fault.
 */
uint32_t ffaspm_heap_bound(const uint8_t *document, size_t length, uint32_t ranges, uint64_t *bytes);

/* ---- Calls (FF-A 1.1, "Interface overview") ----------------------------------------------------- */

/* Registers 0 to 7, and the identifier of the partition that calls. Of a 32-bit call the low halves of
 * the registers are looked at. */
struct ffaspm_call {
    uint64_t regs[8];
    uint16_t caller;
};

/* Registers 0 to 7 of the reply; how many bytes the caller's RX buffer is to be filled with, 0 where it
 * is not filled; and how many operations were made on the tables. */
struct ffaspm_reply {
    uint64_t regs[8];
    size_t rx_length;
    size_t operations;
};

/*
 * Answers a call. `tx` is one copy of the caller's TX buffer, taken by the program before the call,
 * which nobody writes until it returns: the library reads it where it lies, some bytes more than once.
 * It has `tx_length` bytes, which may be fewer than the buffer has where the descriptor is shorter (w2
 * of the sends and of FFA_MEM_RETRIEVE_REQ, 18 bytes for FFA_MEM_RELINQUISH), and 0 for other calls. The
 * bytes of a response are written to `rx`, which has room for `rx_room` bytes: at least as many as the
 * RX buffer of the caller has (none registered: 0), FFASPM_MOST_RX at most. A call that is refused by
 * its tests takes no heap.
 *
 * FFASPM_DONE: the call was answered, be it with FFA_ERROR, and the operations of the call are there
 * for ffaspm_operation. After FFA_ERROR the state and the tables are as they were.
 * FFASPM_NO_MEMORY: the state and the tables are as they were, and the call may be made again. A
 * firmware answers FFA_ERROR with FFA_NO_MEMORY.
 * FFASPM_RX_SHORT: the state and the tables are as they were.
 * FFASPM_NOT_MADE.
 * After any status but FFASPM_DONE there is nothing to replay: ffaspm_operation gives no operation, not
 * even one of an earlier call, and `operations` of the reply is 0. Its other members, and `rx`, are as they
 * were.
 */
uint32_t ffaspm_handle(struct ffaspm *spm, const struct ffaspm_call *call, const uint8_t *tx,
                       size_t tx_length, uint8_t *rx, size_t rx_room, struct ffaspm_reply *reply);

/* ---- What a call did to the tables ---------------------------------------------------------------- */

#define FFASPM_SET 0u        /* the word at `index` of page `page` of the table pool becomes `word` */
#define FFASPM_INVALIDATE 1u /* `count` pages from `address` on are invalidated for `partition` */
#define FFASPM_CLEAR 2u      /* the contents of `count` pages from `address` on become 0 */

/* Members that an operation does not name are 0. */
struct ffaspm_operation {
    uint64_t address;
    uint64_t word;
    uint32_t kind;
    uint32_t page;
    uint32_t index;
    uint32_t count;
    uint16_t partition;
};

/*
 * The operation of the last call at an index from 0 on. To be replayed on the live tables in this order,
 * before the reply, so that a walk which reads a later store reads the earlier ones too: a DMB ISHST stands
 * after each store (docs/LINKING.md; Arm ARM, "Break-before-make sequence").
 *
 * FFASPM_DONE; FFASPM_NOTHING_THERE, where the call made no more (boot, a refused call, one that moves no
 * page, and one that ffaspm_handle did not answer with FFASPM_DONE make none); FFASPM_NOT_MADE.
 */
uint32_t ffaspm_operation(struct ffaspm *spm, size_t index, struct ffaspm_operation *operation);

/*
 * Where the manifest's table pool begins, and how many pages it has: first the roots, then each
 * partition's share.
 *
 * FFASPM_DONE; FFASPM_NOT_MADE.
 */
uint32_t ffaspm_pool(struct ffaspm *spm, uint64_t *address, uint32_t *pages);

/*
 * The page of the pool, from 0 on, where the root of a partition's tables lies (Arm ARM, VTTBR_EL2): at
 * the pool's address plus 4,096 times that number.
 *
 * FFASPM_DONE; FFASPM_NOTHING_THERE, where the manifest has no such partition; FFASPM_NOT_MADE.
 */
uint32_t ffaspm_root(struct ffaspm *spm, uint16_t partition, uint32_t *page);

/*
 * The word at an index, 0 to 511, of a page of the pool (Arm ARM, "VMSAv8-64 descriptor formats"), as
 * it is after all calls so far. After ffaspm_make the live tables are to be filled with all of them. It is 0 in a page
 * that was never taken.
 *
 * FFASPM_DONE; FFASPM_NOTHING_THERE, outside the pool; FFASPM_NOT_MADE.
 */
uint32_t ffaspm_word(struct ffaspm *spm, uint32_t page, uint32_t index, uint64_t *word);

/* ---- What the manager knows --------------------------------------------------------------------- */

/*
 * What a partition reaches of the page that holds an address, by a walk of its tables: bits FFASPM_READ
 * to FFASPM_DEVICE, and 0 where it reaches nothing. A page that is reached is mapped to itself.
 *
 * FFASPM_DONE, also for partitions that the manifest does not have; FFASPM_NOTHING_THERE, where the
 * address is 2^39 or more; FFASPM_NOT_MADE.
 */
uint32_t ffaspm_translate(struct ffaspm *spm, uint16_t partition, uint64_t address, uint32_t *access);

/*
 * The owner of the page that holds an address (FF-A 1.1, "Memory ownership and access").
 *
 * FFASPM_DONE; FFASPM_NOTHING_THERE, where nobody owns it; FFASPM_NOT_MADE.
 */
uint32_t ffaspm_owner(struct ffaspm *spm, uint64_t address, uint16_t *owner);

/*
 * The version of FF-A that a partition speaks (FF-A 1.1, "FFA_VERSION"): FFA_VERSION_1_0 or
 * FFA_VERSION_1_1, and the latter for a partition that the manifest does not have.
 *
 * FFASPM_DONE; FFASPM_NOT_MADE.
 */
uint32_t ffaspm_version(struct ffaspm *spm, uint16_t partition, uint32_t *version);

/* Where the two buffers of a partition lie, and how many pages each has. */
struct ffaspm_buffers {
    uint64_t tx_address;
    uint64_t rx_address;
    uint32_t tx_pages;
    uint32_t rx_pages;
};

/*
 * The buffers that a partition has registered (FF-A 1.1, "FFA_RXTX_MAP"): where to copy TX from before
 * a call, and the bytes of RX to after it.
 *
 * FFASPM_DONE; FFASPM_NOTHING_THERE, where it has registered none; FFASPM_NOT_MADE.
 */
uint32_t ffaspm_buffers(struct ffaspm *spm, uint16_t partition, struct ffaspm_buffers *buffers);

/* ---- What the program supplies: the heap ----------------------------------------------------------- */

/* Whether there was memory, and where it lies. Returned in two registers. */
struct rattle_memory {
    bool ok;
    void *place;
};

/*
 * Room for `size` bytes (0 is possible), aligned to `align`, a power of two of at most 16. `ok` is
 * false where there is none; `place` is then not looked at.
 */
struct rattle_memory rattle_alloc(size_t size, size_t align);

/*
 * Room for `size` bytes at the same alignment, whose first `kept` bytes are those of the room at
 * `place`, which is the heap's again. Where `ok` is false, the room at `place` is as it was.
 */
struct rattle_memory rattle_realloc(void *place, size_t kept, size_t size, size_t align);

/* Gives the room at `place` back. */
void rattle_dealloc(void *place);

/* The library also calls memcpy, memmove and memset of <string.h>. */

#ifdef __cplusplus
}
#endif
#endif
