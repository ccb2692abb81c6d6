# What runs before main: the vectors, a stack for each core, and zeros in .bss.
        .file   "crt0.S"

#define SPR_SR       17
#define SPR_COREID   128
#define SR_CACHES    0x18       /* DCE and ICE */

# Below the stack pointer a function may use 128 bytes (the ABI's red zone). A handler stays clear of them.
#define RED_ZONE     128
#define FRAME        (RED_ZONE + 80)

        .section .vectors, "ax"

# The section lies at 0x100, where every core begins.
        .global _start
        .type   _start, @function
_start: l.movhi r0,0            # 0 on this board; other cores leave it open
        l.mfspr r3,r0,SPR_SR
        l.ori   r3,r3,SR_CACHES
        l.mtspr r0,r3,SPR_SR
        l.j     begin
        l.nop   0
        .size   _start, . - _start

# Each vector but reset: leaves its own address in r3, and goes on at `enter`.
        .macro  vector address
        .org    \address - 0x100
vector_\address:
        l.addi  r1,r1,-FRAME
        l.sw    0(r1),r3
        l.j     enter
        l.ori   r3,r0,\address
        .type   vector_\address, @function
        .size   vector_\address, . - vector_\address
        .endm

        vector  0x200           # bus error
        vector  0x300           # data page fault
        vector  0x400           # instruction page fault
        vector  0x500           # tick timer
        vector  0x600           # alignment
        vector  0x700           # illegal instruction
        vector  0x800           # external interrupt
        vector  0x900           # data TLB miss
        vector  0xA00           # instruction TLB miss
        vector  0xB00           # range
        vector  0xC00           # system call
        vector  0xE00           # trap

        .text

# Keeps the registers that a function in C may change, and calls handle_exception(vector). EPCR and ESR stay in their
# special registers: interrupts are off until l.rfe, so nothing writes them meanwhile.
        .type   enter, @function
enter:  l.sw    4(r1),r4
        l.sw    8(r1),r5
        l.sw    12(r1),r6
        l.sw    16(r1),r7
        l.sw    20(r1),r8
        l.sw    24(r1),r9
        l.sw    28(r1),r11
        l.sw    32(r1),r12
        l.sw    36(r1),r13
        l.sw    40(r1),r15
        l.sw    44(r1),r17
        l.sw    48(r1),r19
        l.sw    52(r1),r21
        l.sw    56(r1),r23
        l.sw    60(r1),r25
        l.sw    64(r1),r27
        l.sw    68(r1),r29
        l.jal   handle_exception
        l.sw    72(r1),r31
        l.lwz   r3,0(r1)
        l.lwz   r4,4(r1)
        l.lwz   r5,8(r1)
        l.lwz   r6,12(r1)
        l.lwz   r7,16(r1)
        l.lwz   r8,20(r1)
        l.lwz   r9,24(r1)
        l.lwz   r11,28(r1)
        l.lwz   r12,32(r1)
        l.lwz   r13,36(r1)
        l.lwz   r15,40(r1)
        l.lwz   r17,44(r1)
        l.lwz   r19,48(r1)
        l.lwz   r21,52(r1)
        l.lwz   r23,56(r1)
        l.lwz   r25,60(r1)
        l.lwz   r27,64(r1)
        l.lwz   r29,68(r1)
        l.lwz   r31,72(r1)
        l.addi  r1,r1,FRAME
        l.rfe
        .size   enter, . - enter

# Gives each core its stack, lets core 0 clear .bss, and calls main(core, cores).
        .type   begin, @function
begin:  l.mfspr r14,r0,SPR_COREID
        l.movhi r1,hi(stacks_top)
        l.ori   r1,r1,lo(stacks_top)
        l.slli  r3,r14,14       # 16 KiB each
        l.sub   r1,r1,r3
        l.movhi r16,hi(bss_is_clear)
        l.ori   r16,r16,lo(bss_is_clear)
        l.sfeqi r14,0
        l.bnf   other
        l.nop   0

        l.movhi r3,hi(bss_start)
        l.ori   r3,r3,lo(bss_start)
        l.movhi r4,hi(bss_end)
        l.ori   r4,r4,lo(bss_end)
        l.j     2f
        l.nop   0
1:      l.sw    0(r3),r0
        l.addi  r3,r3,4
2:      l.sfltu r3,r4
        l.bf    1b
        l.nop   0

# The flag is written and read by l.swa and l.lwa, which orders what stands before and behind it.
        l.ori   r3,r0,1
3:      l.lwa   r4,0(r16)
        l.swa   0(r16),r3
        l.bnf   3b
        l.nop   0
        l.j     call
        l.nop   0

other:  l.lwa   r4,0(r16)
        l.sfeqi r4,0
        l.bf    other
        l.nop   0

call:   l.mfspr r4,r0,129       # NUMCORES
        l.jal   main
        l.ori   r3,r14,0
        l.ori   r3,r11,0
        l.nop   1               # the core stops, with r3 as its exit value
        l.j     .               # not reached on this board
        l.nop   0
        .size   begin, . - begin

        .data
        .balign 4
        .type   bss_is_clear, @object
        .size   bss_is_clear, 4
bss_is_clear:
        .long   0
