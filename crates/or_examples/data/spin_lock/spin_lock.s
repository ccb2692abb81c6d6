# Two cores add to one counter under a spin lock, a thousand times each; the core that brings the counter to 2000 prints
# it. The lock is one word: 0 where it is free, 1 where it is taken. It is taken by l.lwa and l.swa alone.

.org 0x100
        l.movhi r2,hi(lock)
        l.ori   r2,r2,lo(lock)
        l.movhi r4,hi(counter)
        l.ori   r4,r4,lo(counter)
        l.ori   r6,r0,1000      # rounds left

# Take the lock: the word is loaded with a reservation, and stored only where no core has written it since.
take:   l.lwa   r10,0(r2)
        l.sfnei r10,0
        l.bf    take            # taken by the other core
        l.ori   r11,r0,1        # (delay slot)
        l.swa   0(r2),r11
        l.bnf   take            # the reservation is gone
        l.nop   0x0

# Inside: one more.
        l.lwz   r5,0(r4)
        l.addi  r5,r5,1
        l.sw    0(r4),r5

# Release the lock by a plain store.
        l.sw    0(r2),r0
        l.addi  r6,r6,-1
        l.sfnei r6,0
        l.bf    take
        l.nop   0x0

# The value that this core stored last is in r5: exactly one core has stored 2000.
        l.sfeqi r5,2000
        l.bnf   done
        l.nop   0x0

# Print r5 as eight hexadecimal digits and a line feed.
        l.movhi r8,0x9000
        l.ori   r7,r0,28
digit:  l.srl   r9,r5,r7
        l.andi  r9,r9,0xF
        l.sfgtui r9,9
        l.bf    letter
        l.addi  r9,r9,48        # (delay slot) `0` to `9`
        l.j     emit
        l.nop   0x0
letter: l.addi  r9,r9,7         # `A` to `F`
emit:   l.sb    0(r8),r9
        l.sfeqi r7,0
        l.bnf   digit
        l.addi  r7,r7,-4        # (delay slot)
        l.ori   r9,r0,10
        l.sb    0(r8),r9

done:   l.ori   r3,r0,0x0
        l.nop   0x1

# The lock and the counter stand in cache lines of their own.
.org 0x1000
lock:   .word 0
.org 0x1020
counter: .word 0
