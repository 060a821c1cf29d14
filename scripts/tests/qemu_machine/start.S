// A bare machine with tags, `qemu-system-aarch64 -M virt,mte=on -cpu max`, at EL1: its registers, its vectors, and a function for each tag
// instruction and each load and store. A function is called as f(x0, x1) and answers in x0.
    .arch armv8.5-a+memtag
    .section .text.start, "ax"
    .global start
start:
    adrp    x0, stack_top
    add     sp, x0, :lo12:stack_top
    adrp    x0, vectors
    add     x0, x0, :lo12:vectors
    msr     vbar_el1, x0
    mov     x0, #(3 << 20)                  // CPACR_EL1.FPEN: the registers q0 and q1 may be used
    msr     cpacr_el1, x0
    isb
    bl      page_tables                     // answers the first table's address
    msr     ttbr0_el1, x0
    ldr     x0, =0xf0ff                     // MAIR_EL1: 0 is Normal memory, 1 is Normal Tagged
    msr     mair_el1, x0
    // TCR_EL1: addresses of 39 bits, tables in write-back memory, none for the upper half, 36 bits of physical address, TBI0; TCMA0 is 0
    ldr     x0, =(25 | 1 << 8 | 1 << 10 | 3 << 12 | 1 << 23 | 1 << 32 | 1 << 37)
    msr     tcr_el1, x0
    isb
    tlbi    vmalle1
    dsb     sy
    mov     x0, #1                          // GCR_EL1: Exclude 0x0001, RRND 0
    msr     gcr_el1, x0
    msr     rgsr_el1, xzr
    mrs     x0, sctlr_el1
    ldr     x1, =(1 | 1 << 2 | 1 << 12 | 1 << 40 | 1 << 43) // M, C, I; TCF 1, synchronous checks; ATA
    orr     x0, x0, x1
    bic     x0, x0, #2                      // A: loads and stores need not be aligned
    msr     sctlr_el1, x0
    isb
    msr     tco, #0
    bl      main
    b       .

    .text
    .global semihosting
semihosting:
    hlt     #0xf000
    ret

    .balign 2048
vectors:
    .rept   4                               // this level with SP0
    .balign 128
    b       unexpected
    .endr
    .balign 128                             // this level with its own SP, synchronous: note ESR and FAR, go on after the instruction
    stp     x0, x1, [sp, #-32]!
    str     x2, [sp, #16]
    mrs     x0, elr_el1
    adrp    x1, operations_begin
    add     x1, x1, :lo12:operations_begin
    cmp     x0, x1
    b.lo    unexpected
    adrp    x1, operations_end
    add     x1, x1, :lo12:operations_end
    cmp     x0, x1
    b.hs    unexpected
    add     x0, x0, #4
    msr     elr_el1, x0
    adrp    x1, fault
    add     x1, x1, :lo12:fault
    mrs     x0, esr_el1
    mrs     x2, far_el1
    stp     x0, x2, [x1]
    ldr     x2, [sp, #16]
    ldp     x0, x1, [sp], #32
    eret
    .rept   11
    .balign 128
    b       unexpected
    .endr
    .balign 128
unexpected:
    mrs     x0, esr_el1
    mrs     x1, elr_el1
    b       stop

    .balign 64
    .global operations_begin, operations_end
operations_begin:
    .macro  begin name
    .global \name
\name:
    .endm

    begin   set_rgsr
    msr     rgsr_el1, x0
    ret
    begin   irg
    irg     x0, x0, x1
    ret
    begin   gmi
    gmi     x0, x0, x1
    ret
    begin   ldg                             // x0 is Xn, x1 is Xt
    ldg     x1, [x0]
    mov     x0, x1
    ret
    begin   stg
    stg     x1, [x0]
    ret
    begin   st2g
    st2g    x1, [x0]
    ret
    begin   stzg
    stzg    x1, [x0]
    ret

    // Loads and stores: x0 is the address, x1 a buffer. A load fills its registers from the buffer first: so after a fault the buffer shows
    // whether they have changed.
    .macro  access length, suffix, register
    begin   load_\length
    ldr\suffix \register, [x1]
    ldr\suffix \register, [x0]
    str\suffix \register, [x1]
    ret
    begin   store_\length
    ldr\suffix \register, [x1]
    str\suffix \register, [x0]
    ret
    .endm
    access  1, b, w2
    access  2, h, w2
    access  4, , w2
    access  8, , x2
    access  16, , q0
    begin   load_32
    ldp     q0, q1, [x1]
    ldp     q0, q1, [x0]
    stp     q0, q1, [x1]
    ret
    begin   store_32
    ldp     q0, q1, [x1]
    stp     q0, q1, [x0]
    ret

    // addg_table + 8 (16 u6 + u4) is ADDG x0, x0, #(16 u6), #u4; subg_table likewise
    .macro  table name, instruction
    .balign 8
    .global \name
\name:
    .set    k, 0
    .rept   1024
    \instruction x0, x0, #((k >> 4) << 4), #(k & 15)
    ret
    .set    k, k + 1
    .endr
    .endm
    table   addg_table, addg
    table   subg_table, subg
operations_end:

    .bss
    .balign 16
    .skip   65536
stack_top:
