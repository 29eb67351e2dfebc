@ A loop that never ends where rows have classes: the thread stores to another row of the class in between.
        mov r4, #8192
        mov r6, #0xa000         @ 32,768 bytes behind the word
again:  ldrex r1, [r4]
        add r1, r1, #1
        str r1, [r6]
        strex r2, r1, [r4]
        cmp r2, #0
        bne again
