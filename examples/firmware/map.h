/*
 * Where things lie, as manifest.toml and image.ld say it too, and the functions of HVC that EL2 serves
 * itself. EL2 and the partitions both include it.
 */
#ifndef MAP_H
#define MAP_H

#define PAGE 4096ul
#define RAM 0x40000000ul
#define TABLES 0x44000000ul /* the manifest's pool */
#define IMAGE 0x48000000ul  /* of EL2 */

#define CODE_OF(partition) (0x50000000ul + 0x10000000ul * ((partition) - 0x8001))
#define TX_OF(partition) (CODE_OF(partition) + 0x100000)
#define RX_OF(partition) (TX_OF(partition) + PAGE)
#define DATA_OF(partition) (CODE_OF(partition) + 0x200000)
#define DATA_PAGES 16

/* The first instructions of each partition's code: a branch to its start, and two probes (check.c). */
#define PROBE_LOAD(partition) (CODE_OF(partition) + 4)
#define PROBE_STORE(partition) (CODE_OF(partition) + 12)

/* Pages of 0x8001 that it sends, its block of 2 MB, and its device. */
#define LAST_CODE (CODE_OF(0x8001) + 15 * PAGE)
#define LENT DATA_OF(0x8001)
#define SHARED (DATA_OF(0x8001) + PAGE)
#define GIVEN (DATA_OF(0x8001) + 2 * PAGE)
#define HELD (DATA_OF(0x8001) + 3 * PAGE)
#define BLOCK 0x50400000ul
#define BLOCK_LENT (BLOCK + 5 * PAGE)
#define BLOCK_KEPT (BLOCK + 300 * PAGE)
#define CLOCK 0x09010000ul
#define UART 0x09000000ul /* EL2's */

/* FF-A 1.1 and 1.2: messages and the console, which the core does not serve. */
#define FFA_MSG_WAIT 0x8400006bu
#define FFA_MSG_SEND_DIRECT_REQ_64 0xc400006fu
#define FFA_MSG_SEND_DIRECT_RESP_64 0xc4000070u
#define FFA_CONSOLE_LOG_64 0xc400008au

/* PSCI, and two calls of this firmware alone (SMCCC, "Vendor Specific Hypervisor Service Calls"): EL2
 * compares what the processor lets each partition reach with what the core says, and lets the next
 * call of the core find no heap. */
#define PSCI_SYSTEM_OFF 0x84000008u
#define CHECK 0xc6000000u
#define STARVE 0xc6000001u

#endif
