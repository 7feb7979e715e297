# Eight instructions, one after the other; each text of this folder is about one or two of them.
    .globl first
first:
    add a0, a0, a1          # 0x20000
    add a0, a0, a1          # 0x20004
    beq a0, a1, first       # 0x20008
    ret                     # 0x2000c
    ld a0, 0(a1)            # 0x20010
    ld a2, 0(a1)            # 0x20014
    sd a0, 0(a1)            # 0x20018
    ld a0, 0(a1)            # 0x2001c
