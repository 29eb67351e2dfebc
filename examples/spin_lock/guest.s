@ A spin lock, for any number of threads. Ten times a thread takes the lock, and under it adds a number to a sum, in all 55.
@ When all are done, each thread leaves with 0 where the sum is 55 for each of them, and with 1 where an addition got lost.
        mov r4, #8192           @ the lock: 0 where it is free, 1 where it is held
        mov r6, r1              @ the number of threads
        mov r5, #10
again:  bl take
        ldr r3, [r4, #8]        @ the sum
        add r3, r3, r5
        str r3, [r4, #8]
        bl free
        subs r5, r5, #1
        bne again
        bl take
        ldr r3, [r4, #12]       @ the number of threads that are done
        add r3, r3, #1
        str r3, [r4, #12]
        bl free
all:    ldr r3, [r4, #12]
        cmp r3, r6
        bne all
        ldr r3, [r4, #8]
        mov r1, #55
        mul r1, r6, r1
        subs r0, r3, r1
        movne r0, #1
        mov r7, #1              @ exit
        svc #0

@ Takes the lock.
take:   ldrex r0, [r4]
        cmp r0, #0
        bne wait
        mov r1, #1
        strex r2, r1, [r4]      @ 0 if nobody wrote the lock since
        cmp r2, #0
        bne take
        dmb                     @ what follows is done under the lock
        bx lr
wait:   clrex                   @ somebody else holds it: no reservation is kept meanwhile
        yield
        b take

@ Frees the lock.
free:   dmb                     @ what was done is seen before the lock is free
        mov r1, #0
        str r1, [r4]
        bx lr
