# A flag that is set before its data: core 1 says that a message is there, and then writes it. Core 0 waits for the flag, reads
# the message at once, and exits with what is missing from 7.

.org 0x100
        l.mfspr r10,r0,0x80     # the core's number
        l.ori   r2,r0,lo(flag)
        l.sfnei r10,0
        l.bf    send
        l.nop   0x0

wait:   l.lwz   r6,0(r2)
        l.sfeqi r6,0
        l.bf    wait
        l.nop   0x0
        l.lwz   r4,4(r2)
        l.ori   r3,r0,7
        l.sub   r3,r3,r4
        l.nop   0x1

send:   l.ori   r5,r0,1
        l.ori   r4,r0,7
        l.sw    0(r2),r5        # the flag comes too early
        l.sw    4(r2),r4
        l.ori   r3,r0,0x0
        l.nop   0x1

.org 0x1000
flag:   .word 0
data:   .word 0
