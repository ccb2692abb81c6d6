# Core 0 sends an inter-processor interrupt to core 1. Core 1 takes it as an external interrupt, prints the lower half of
# its status word, which is `P`, and acknowledges it. Core 0 waits for the answer, which is a word in memory.

.org 0x100
        l.mfspr r2,r0,0x80      # COREID
        l.sfeqi r2,0
        l.bf    sender
        l.nop   0x0
        l.j     receiver
        l.nop   0x0

# The external interrupt. Only core 1 takes it.
.org 0x800
        l.movhi r10,0x9800
        l.lwz   r11,12(r10)     # core 1's status
        l.andi  r11,r11,0xFF
        l.movhi r12,0x9000
        l.sb    0(r12),r11
        l.movhi r11,0x8000      # ACK
        l.sw    8(r10),r11      # to core 1's control
        l.ori   r11,r0,2
        l.mtspr r0,r11,0x4802   # PICSR: line 1 (the latched form keeps it until here)
        l.movhi r12,hi(answer)
        l.ori   r12,r12,lo(answer)
        l.ori   r11,r0,1
        l.sw    0(r12),r11
        l.ori   r14,r0,1        # the receiver may stop
        l.rfe

.org 0x1000
sender: l.movhi r12,hi(ready)
        l.ori   r12,r12,lo(ready)
await:  l.lwz   r11,0(r12)      # until core 1 takes interrupts
        l.sfeqi r11,0
        l.bf    await
        l.nop   0x0
        l.movhi r10,0x9800
        l.movhi r11,0x4001      # GEN, to core 1
        l.ori   r11,r11,80      # `P`
        l.sw    0(r10),r11      # core 0's control
        l.movhi r12,hi(answer)
        l.ori   r12,r12,lo(answer)
listen: l.lwz   r11,0(r12)
        l.sfeqi r11,0
        l.bf    listen
        l.nop   0x0
        l.movhi r12,0x9000
        l.ori   r11,r0,10
        l.sb    0(r12),r11
        l.ori   r3,r0,0x0
        l.nop   0x1

receiver: l.ori r14,r0,0x0
        l.ori   r11,r0,2
        l.mtspr r0,r11,0x4800   # PICMR: line 1
        l.mfspr r13,r0,0x11
        l.ori   r13,r13,0x4     # IEE
        l.mtspr r0,r13,0x11
        l.movhi r12,hi(ready)
        l.ori   r12,r12,lo(ready)
        l.ori   r11,r0,1
        l.sw    0(r12),r11
idle:   l.sfeqi r14,0
        l.bf    idle
        l.nop   0x0
        l.ori   r3,r0,1
        l.nop   0x1

.org 0x2000
ready:  .word 0
answer: .word 0
