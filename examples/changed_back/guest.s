@ A word that is changed and changed back. Thread 0 loads it exclusively; then thread 1 stores another value to it, and the
@ first one again. So the store-exclusive of thread 0 fails, although the word has the value that was loaded.
        movw r4, #lo(number)
        movt r4, #hi(number)
        mov r1, #1
        cmp r0, #0
        bne other
        ldrex r2, [r4]
        str r1, [r4, #8]        @ the word is loaded
wait:   ldr r3, [r4, #16]
        cmp r3, #1
        bne wait
        add r2, r2, #1
        strex r3, r2, [r4]
        rsb r0, r3, #1          @ exit with 0 just where it failed
        mov r7, #1
        svc #0
other:  ldr r3, [r4, #8]
        cmp r3, #1
        bne other
        ldr r2, [r4]
        add r3, r2, #5
        str r3, [r4]            @ changed,
        str r2, [r4]            @ and changed back
        str r1, [r4, #16]
        mov r0, #0
        mov r7, #1
        svc #0
        .data
number: .word 7                 @ each flag is in a row of its own
        .word 0
        .space 16
