# An ABA on a list: nodes are popped and pushed by two cores. The head is replaced by l.lwa and l.swa, but what it is compared
# with, and the node behind it, were read by plain loads before. If in between the other core takes two nodes and gives the
# first one back, the head looks as it did, and the node behind it is not in the list any more.
#
# A node is two words: the next node, and the number of cores that hold it. A core that takes a node which the other one holds
# exits with 1.

.org 0x100
        l.mfspr r10,r0,0x80     # the core's number
        l.ori   r2,r0,lo(head)
        l.ori   r5,r0,10        # rounds left

# Each round takes two nodes, and gives the first back before the second.
round:  l.jal   pop
        l.nop   0x0
        l.ori   r20,r11,0x0
        l.jal   pop
        l.nop   0x0
        l.ori   r21,r11,0x0
        l.ori   r11,r20,0x0
        l.jal   push
        l.nop   0x0
        l.ori   r11,r21,0x0
        l.jal   push
        l.nop   0x0
        l.addi  r5,r5,-1
        l.sfnei r5,0
        l.bf    round
        l.nop   0x0
        l.ori   r3,r0,0x0
        l.nop   0x1

# Takes the first node into r11.
pop:    l.lwz   r11,0(r2)
        l.sfeqi r11,0
        l.bf    pop             # the list is empty: the other core has all nodes
        l.nop   0x0
        l.lwz   r12,0(r11)      # the node behind it
        l.lwa   r13,0(r2)
        l.sfeq  r13,r11
        l.bnf   pop             # another node is first now
        l.nop   0x0
        l.swa   0(r2),r12
        l.bnf   pop
        l.nop   0x0
        l.lwz   r14,4(r11)
        l.sfnei r14,0
        l.bf    taken
        l.ori   r14,r0,1        # (delay slot)
        l.sw    4(r11),r14
        l.jr    r9
        l.nop   0x0

# Gives the node in r11 back.
push:   l.sw    4(r11),r0
give:   l.lwa   r12,0(r2)
        l.sw    0(r11),r12
        l.swa   0(r2),r11
        l.bnf   give
        l.nop   0x0
        l.jr    r9
        l.nop   0x0

taken:  l.ori   r3,r0,1
        l.nop   0x1

.org 0x1000
head:   .word one
.org 0x1020
one:    .word two
        .word 0
.org 0x1040
two:    .word three
        .word 0
.org 0x1060
three:  .word four
        .word 0
.org 0x1080
four:   .word 0
        .word 0
