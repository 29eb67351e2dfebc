@ A loop that never ends: the thread itself stores to the row between its load-exclusive and its store-exclusive.
        mov r4, #8192
again:  ldrex r1, [r4]
        add r1, r1, #1
        str r1, [r4, #4]        @ in the row of the word, however narrow rows are
        strex r2, r1, [r4]
        cmp r2, #0
        bne again
