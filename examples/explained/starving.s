@ Thread 0 has a long way from its load-exclusive to its store-exclusive, and the others have a short one.
        mov r4, #8192
        cmp r0, #0
        beq slow
fast:   ldrex r1, [r4]
        add r1, r1, #1
        strex r2, r1, [r4]
        b fast
slow:   ldrex r1, [r4]
        mov r3, #50
more:   subs r3, r3, #1
        ldr r5, [r4, #64]
        bne more
        add r1, r1, #1
        strex r2, r1, [r4]
        b slow
