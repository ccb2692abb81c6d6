# A lost update: two cores add 1 to a word a hundred times each, by a load, an addition and a store. Core 0 waits for core 1
# and exits with the number of additions that are missing from 200.

.org 0x100
        l.mfspr r10,r0,0x80     # the core's number
        l.ori   r2,r0,lo(counter)
        l.ori   r5,r0,100       # additions left
again:  l.lwz   r4,0(r2)
        l.addi  r4,r4,1
        l.sw    0(r2),r4        # an addition of the other core since the load is lost
        l.addi  r5,r5,-1
        l.sfnei r5,0
        l.bf    again
        l.nop   0x0
        l.sfnei r10,0
        l.bf    last
        l.nop   0x0

# Core 0 waits until core 1 has added for the last time.
wait:   l.lwz   r6,4(r2)
        l.sfeqi r6,0
        l.bf    wait
        l.nop   0x0
        l.lwz   r4,0(r2)
        l.ori   r3,r0,200
        l.sub   r3,r3,r4
        l.nop   0x1

last:   l.ori   r6,r0,1
        l.sw    4(r2),r6
        l.ori   r3,r0,0x0
        l.nop   0x1

.org 0x1000
counter: .word 0
done:   .word 0
