@ Adds one to a counter, three times, so that no other thread's addition could get lost.
        mov r2, #8192           @ the counter
        mov r3, #3
again:  ldrex r0, [r2]
        add r0, r0, #1
        strex r1, r0, [r2]      @ 0 if nobody wrote the counter since
        cmp r1, #0
        bne again
        subs r3, r3, #1
        bne again
        ldr r0, [r2]            @ leaves with the counter as the code
        mov r7, #1
        svc #0
