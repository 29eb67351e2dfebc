@ Sixteen counters, eight bytes apart, and any number of threads. Each round steps a thread's random number, whose upper
@ four bits choose the counter to which one is added; the number begins at the thread's own. A thread has eight rounds. When
@ all are done, each thread leaves with what the counters differ in all from the number of rounds, which is 0 where no addition
@ got lost.
        movw r4, #0             @ the random number
        movt r4, #0
        add r4, r4, r0
        movw r5, #26125         @ 1664525, by which it is multiplied in each round
        movt r5, #25
        movw r6, #62303         @ 1013904223, which is added to that
        movt r6, #15470
        mov r8, #8              @ the rounds to go
        movw r9, #lo(first)      @ the counters
        movt r9, #hi(first)
loop:   mla r4, r4, r5, r6
        mov r10, r4, lsr #28
        add r10, r9, r10, lsl #3
try:    ldrex r11, [r10]
        add r11, r11, #1
        strex r12, r11, [r10]   @ 0 if nobody wrote the counter since
        cmp r12, #0
        bne try
        subs r8, r8, #1
        bne loop
        add r10, r9, #128       @ the number of threads that are done
finish: ldrex r11, [r10]
        add r11, r11, #1
        strex r12, r11, [r10]
        cmp r12, #0
        bne finish
wait:   ldr r11, [r10]
        cmp r11, r1
        bne wait
        mov r0, #0
        mov r2, #16
sum:    ldr r3, [r9], #8
        add r0, r0, r3
        subs r2, r2, #1
        bne sum
        sub r0, r0, r1, lsl #3  @ eight rounds of each thread
        mov r7, #1              @ exit
        svc #0
        .data
first:  .space 136              @ sixteen counters, and behind them the threads that are done
