# Data translation with a miss handler: a store to 00004000 misses, the handler enters a page that leads to 00006000, and
# the store runs again. The program then reads 00006000 without translation and prints the byte, `M`.

.org 0x100
        l.j     start
        l.nop   0x0

# The data miss. EEAR0 has the address; its page goes to set (page mod 64), valid, and leads one page further on.
.org 0x900
        l.mfspr r10,r0,0x30     # EEAR0
        l.srli  r11,r10,13      # the page's number
        l.andi  r12,r11,0x3F    # its set
        l.slli  r11,r11,13      # the page's address
        l.ori   r13,r11,0x1     # V
        l.mtspr r12,r13,0xA00   # data match
        l.addi  r11,r11,0x2000  # the next page
        l.ori   r13,r11,0x300   # SRE, SWE
        l.mtspr r12,r13,0xA80   # data translate
        l.rfe

.org 0x1000
start:  l.ori   r2,r0,0x4000
        l.ori   r4,r0,77        # `M`
        l.mfspr r5,r0,0x11
        l.ori   r5,r5,0x20      # DME
        l.mtspr r0,r5,0x11
        l.sw    0(r2),r4        # misses once, and is stored at 00006000
        l.xori  r5,r5,0x20
        l.mtspr r0,r5,0x11      # translation off
        l.ori   r2,r0,0x6000
        l.lwz   r6,0(r2)
        l.movhi r8,0x9000
        l.sb    0(r8),r6
        l.ori   r6,r0,10
        l.sb    0(r8),r6
        l.ori   r3,r0,0x0
        l.nop   0x1
