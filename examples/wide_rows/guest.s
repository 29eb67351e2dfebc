@ Stores eight bytes behind a word between its exclusives, and leaves with what the store-exclusive says: 0 where rows have
@ eight bytes, and 1 where they are wider, since then the store falls into the row.
        mov r1, #0x2000
        ldrex r0, [r1]
        str r0, [r1, #8]
        strex r2, r0, [r1]
        mov r0, r2
        mov r7, #1
        svc #0
