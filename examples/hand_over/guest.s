@ Work that is handed over, for up to four threads that may start three others each. Each of them starts three threads, which
@ have the next three numbers as their arguments; each of these adds its number to a sum, and counts itself in another
@ word. Those that began by themselves wait until all are counted, and leave with 0 where the sum is that of all numbers, and
@ with 1 where an addition got lost or a start was answered otherwise than by the next number of the thread's own.
        mov r8, #8192           @ the sum
        add r9, r8, #2048       @ how many have added their number, in a row of its own
        mov r10, r1             @ the number of threads that began by themselves
        add r5, r0, r0, lsl #1  @ the last number that the threads before this one hand over
        add r6, r10, r5         @ the number of the thread that is to be started next
        add r11, r5, #3         @ the last number that this one hands over
        movw r4, #lo(work)
        movt r4, #hi(work)
        movw r7, #1             @ the call that starts a thread, 0xF0001
        movt r7, #15
next:   add r5, r5, #1
        mov r0, r4              @ where it begins
        mov r1, r5              @ what it has in r0 then
        svc #0
        cmp r0, r6
        bne wrong
        add r6, r6, #1
        cmp r5, r11
        bne next
        add r10, r10, r10, lsl #1 @ how many are started by all
wait:   ldr r1, [r9]
        cmp r1, r10
        bne wait
        ldr r1, [r8]
        add r2, r10, #1
        mul r3, r10, r2         @ twice the sum of all numbers
        cmp r1, r3, lsr #1
        bne wrong
        mov r0, #0
        b leave
wrong:  mov r0, #1
leave:  mov r7, #1              @ exit
        svc #0

@ Where a started thread begins: adds r0 to the sum and 1 to the other word.
work:   mov r8, #8192
sum:    ldrex r1, [r8]
        add r1, r1, r0
        strex r2, r1, [r8]
        cmp r2, #0
        bne sum
        add r9, r8, #2048
done:   ldrex r1, [r9]
        add r1, r1, #1
        strex r2, r1, [r9]
        cmp r2, #0
        bne done
        mov r0, #0
        mov r7, #1              @ exit
        svc #0
