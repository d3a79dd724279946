/* EL2's image, and the code of each partition in the region that manifest.toml gives it. Partitions
 * have no data of their own in the image: what they write is in their data region. */
ENTRY(start)
SECTIONS
{
    .text 0x48000000 : { KEEP(*start.o(.text)) EXCLUDE_FILE(*partition_800?.o) *(.text .text.*) }
    .rodata : { EXCLUDE_FILE(*partition_800?.o) *(.rodata .rodata.*) }
    .data : { EXCLUDE_FILE(*partition_800?.o) *(.data .data.*) }
    .bss (NOLOAD) : ALIGN(4096) {
        bss_begin = .;
        EXCLUDE_FILE(*partition_800?.o) *(.bss .bss.* COMMON)
        . = ALIGN(16);
        bss_end = .;
    }
    .heap (NOLOAD) : ALIGN(4096) { heap_begin = .; . += 0x100000; heap_end = .; }
    .stack (NOLOAD) : ALIGN(4096) { stack_begin = .; . += 0x10000; stack_end = .; }

    .partition_8001 0x50000000 : {
        KEEP(*partition_8001.o(.first))
        *partition_8001.o(.text .rodata .rodata.*)
        . = 0xf000;
        KEEP(*partition_8001.o(.last))
    }
    .partition_8002 0x60000000 : {
        KEEP(*partition_8002.o(.first))
        *partition_8002.o(.text .rodata .rodata.*)
        . = 0xf000;
        KEEP(*partition_8002.o(.last))
    }
    .partition_8003 0x70000000 : {
        KEEP(*partition_8003.o(.first))
        *partition_8003.o(.text .rodata .rodata.*)
        . = 0xf000;
        KEEP(*partition_8003.o(.last))
    }
    .partition_data : { *partition_800?.o(.data .data.* .bss .bss.*) }
    ASSERT(SIZEOF(.partition_data) == 0, "a partition has data in the image")
    ASSERT(SIZEOF(.partition_8001) <= 0x10000, "a partition's code is larger than its region")

    /DISCARD/ : { *(.comment .note.* .eh_frame .eh_frame_hdr .ARM.* .gnu.*) }
}
