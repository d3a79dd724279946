/*
 * EL2's entry, its exception vectors, and the way into a partition at EL1 and back. The manifest's bytes
 * are at the end.
 */
    .text
    .global start
start:
    mrs     x0, mpidr_el1
    tst     x0, #0xff
    b.ne    park                    /* one processor runs */
    ldr     x0, =stack_end
    mov     sp, x0
    adr     x0, vectors
    msr     vbar_el2, x0
    mov     x0, #0x33ff             /* FP and SIMD are not trapped, since the core's code uses them; */
    msr     cptr_el2, x0            /* SVE and SME are, so that V0 to V31 are all there is to save */
    isb
    ldr     x0, =bss_begin
    ldr     x1, =bss_end
1:  str     xzr, [x0], #8
    cmp     x0, x1
    b.lo    1b
    bl      el2_main
park:
    wfe
    b       park

/* ---- exceptions: of a partition the synchronous ones, and no others */

    .macro  vector to
    .balign 128
    \to
    .endm

    .balign 2048
vectors:
    .rept   8
    vector  "b unexpected"          /* from EL2 */
    .endr
    vector  "b leave"               /* from EL1: synchronous */
    .rept   7
    vector  "b unexpected"          /* IRQ, FIQ, SError, AArch32 */
    .endr

unexpected:
    mrs     x0, esr_el2
    mrs     x1, elr_el2
    mrs     x2, far_el2
    b       el2_unexpected

/* ---- the switch: struct context of el2.h has x0 to x30 at 0, pc at 248, pstate at 256, V0 to V31 at
 * 272, FPCR at 784, FPSR at 792 */

    .macro  general op              /* x4 to x29 of the context at x0 */
    \op     x4, x5, [x0, #32]
    \op     x6, x7, [x0, #48]
    \op     x8, x9, [x0, #64]
    \op     x10, x11, [x0, #80]
    \op     x12, x13, [x0, #96]
    \op     x14, x15, [x0, #112]
    \op     x16, x17, [x0, #128]
    \op     x18, x19, [x0, #144]
    \op     x20, x21, [x0, #160]
    \op     x22, x23, [x0, #176]
    \op     x24, x25, [x0, #192]
    \op     x26, x27, [x0, #208]
    \op     x28, x29, [x0, #224]
    .endm

    .macro  vectors_of op           /* V0 to V31 at x1 */
    \op     q0, q1, [x1], #32
    \op     q2, q3, [x1], #32
    \op     q4, q5, [x1], #32
    \op     q6, q7, [x1], #32
    \op     q8, q9, [x1], #32
    \op     q10, q11, [x1], #32
    \op     q12, q13, [x1], #32
    \op     q14, q15, [x1], #32
    \op     q16, q17, [x1], #32
    \op     q18, q19, [x1], #32
    \op     q20, q21, [x1], #32
    \op     q22, q23, [x1], #32
    \op     q24, q25, [x1], #32
    \op     q26, q27, [x1], #32
    \op     q28, q29, [x1], #32
    \op     q30, q31, [x1], #32
    .endm

    .macro  callee_saved op         /* what a C function keeps, on the stack */
    \op     x19, x20, [sp]
    \op     x21, x22, [sp, #16]
    \op     x23, x24, [sp, #32]
    \op     x25, x26, [sp, #48]
    \op     x27, x28, [sp, #64]
    \op     x29, x30, [sp, #80]
    \op     d8, d9, [sp, #96]
    \op     d10, d11, [sp, #112]
    \op     d12, d13, [sp, #128]
    \op     d14, d15, [sp, #144]
    .endm

/* void enter(struct context *): runs a partition until its next exception to EL2. */
    .global enter
enter:
    sub     sp, sp, #160
    callee_saved stp
    msr     tpidr_el2, x0
    ldp     x2, x3, [x0, #248]
    msr     elr_el2, x2
    msr     spsr_el2, x3
    add     x1, x0, #272
    vectors_of ldp
    ldp     x2, x3, [x1]
    msr     fpcr, x2
    msr     fpsr, x3
    general ldp
    ldr     x30, [x0, #240]
    ldp     x2, x3, [x0, #16]
    ldp     x0, x1, [x0]
    eret

leave:
    stp     x0, x1, [sp, #-16]!
    mrs     x0, tpidr_el2
    stp     x2, x3, [x0, #16]
    ldp     x2, x3, [sp], #16
    stp     x2, x3, [x0]
    general stp
    str     x30, [x0, #240]
    mrs     x2, elr_el2
    mrs     x3, spsr_el2
    stp     x2, x3, [x0, #248]
    add     x1, x0, #272
    vectors_of stp
    mrs     x2, fpcr
    mrs     x3, fpsr
    stp     x2, x3, [x1]
    callee_saved ldp
    add     sp, sp, #160
    ret

    .section .rodata
    .global manifest_begin, manifest_end
manifest_begin:
    .incbin "manifest.toml"
manifest_end:
