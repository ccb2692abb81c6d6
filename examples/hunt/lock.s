# The additions of lost_update.s under a lock, which is taken by l.lwa and l.swa and freed by a plain store: none is lost in
# any order.

.org 0x100
        l.mfspr r10,r0,0x80     # the core's number
        l.ori   r2,r0,lo(counter)
        l.ori   r7,r0,lo(lock)
        l.ori   r5,r0,100       # additions left
again:  l.lwa   r6,0(r7)
        l.sfnei r6,0
        l.bf    again           # taken by the other core
        l.ori   r6,r0,1         # (delay slot)
        l.swa   0(r7),r6
        l.bnf   again           # the reservation is gone
        l.nop   0x0
        l.lwz   r4,0(r2)
        l.addi  r4,r4,1
        l.sw    0(r2),r4
        l.sw    0(r7),r0        # free
        l.addi  r5,r5,-1
        l.sfnei r5,0
        l.bf    again
        l.nop   0x0
        l.sfnei r10,0
        l.bf    last
        l.nop   0x0

# Core 0 waits until core 1 has added for the last time.
wait:   l.lwz   r6,4(r2)
        l.sfeqi r6,0
        l.bf    wait
        l.nop   0x0
        l.lwz   r4,0(r2)
        l.ori   r3,r0,200
        l.sub   r3,r3,r4
        l.nop   0x1

last:   l.ori   r6,r0,1
        l.sw    4(r2),r6
        l.ori   r3,r0,0x0
        l.nop   0x1

.org 0x1000
counter: .word 0
done:   .word 0
.org 0x1020
lock:   .word 0
