# Prints `H` on the console and stops with the UART's address as its status.
        l.movhi r3,0x9000       # the UART's base
        l.addi  r4,r0,72        # `H`
        l.sb    0(r3),r4        # to the transmit register
        l.nop   0x1             # stop
