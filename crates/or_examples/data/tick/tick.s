# The tick timer interrupts three times; each time the handler prints `T`. Then a line feed, and stop.

.org 0x100
        l.j     start
        l.nop   0x0

# The tick handler. It keeps r10 to r12 for itself. A write of TTMR without bit 28 ends the interrupt; the mode 1 lets
# TTCR begin again from 0 at each match.
.org 0x500
        l.movhi r10,0x9000
        l.ori   r11,r0,84       # `T`
        l.sb    0(r10),r11
        l.addi  r12,r12,1       # ticks so far
        l.movhi r11,0x6000      # M 1, IE, and no IP
        l.ori   r11,r11,100     # a match after 100 instructions
        l.mtspr r0,r11,0x5000
        l.rfe

.org 0x1000
start:  l.ori   r12,r0,0x0
        l.mtspr r0,r0,0x5001    # TTCR 0
        l.movhi r11,0x6000
        l.ori   r11,r11,100
        l.mtspr r0,r11,0x5000   # TTMR
        l.mfspr r13,r0,0x11     # SR
        l.ori   r13,r13,0x2     # TEE
        l.mtspr r0,r13,0x11

wait:   l.sfltui r12,3
        l.bf    wait
        l.nop   0x0

        l.mfspr r13,r0,0x11
        l.xori  r13,r13,0x2     # no more ticks
        l.mtspr r0,r13,0x11
        l.movhi r10,0x9000
        l.ori   r11,r0,10
        l.sb    0(r10),r11
        l.ori   r3,r12,0x0
        l.nop   0x1
