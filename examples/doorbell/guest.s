@ A doorbell of plain stores, for any number of threads. Each waits until the bell has its number, adds its number and 1 to a sum,
@ which no other thread touches meanwhile, and rings for the next. Thread 0 waits for the last one, and leaves with 0 where the
@ sum is that of all of them, and with 1 where an addition got lost.
        mov r4, #8192           @ the bell: the number of the thread whose turn it is
        mov r6, r1              @ the number of threads
wait:   ldr r1, [r4]
        cmp r1, r0
        bne wait
        ldr r2, [r4, #8]        @ the sum
        add r2, r2, r0
        add r2, r2, #1
        str r2, [r4, #8]
        add r1, r0, #1
        str r1, [r4]            @ rings for the next thread
        cmp r0, #0
        bne leave
last:   ldr r1, [r4]
        cmp r1, r6
        bne last
        add r1, r6, #1
        mul r3, r6, r1          @ twice the sum
        ldr r2, [r4, #8]
        cmp r2, r3, lsr #1
        movne r0, #1
        b exit
leave:  mov r0, #0
exit:   mov r7, #1              @ exit
        svc #0
