@ A node that is taken and put back, under the eyes of a compare-and-swap and of a store-exclusive. There are two stacks of two
@ nodes. Thread 0 looks at the top of the first and at the node below; then thread 1 takes both nodes, and puts the upper one back.
@ The compare-and-swap of thread 0 finds the top that it has seen, and makes the lower node the top, which thread 1 holds. On the
@ second stack the same is done by a load-exclusive and a store-exclusive, which fails.
        movw r4, #lo(stacks)
        movt r4, #hi(stacks)
        cmp r0, #0
        bne other
        ldr r1, [r4]            @ the top,
        ldr r2, [r1]            @ and the node below
        mov r3, #1
        bl hand
swap:   ldrex r5, [r4]          @ a compare-and-swap, as it is made of exclusives
        cmp r5, r1
        strexeq r6, r2, [r4]
        cmpeq r6, #1
        beq swap
        add r8, r4, #8
        ldrex r1, [r8]
        ldr r2, [r1]
        mov r3, #3
        bl hand
        strex r6, r2, [r8]
        rsb r0, r6, #1          @ exit with 0 just where it failed,
        ldr r1, [r4]
        add r2, r4, #24
        cmp r1, r2
        movne r0, #1            @ and the first stack has the node that thread 1 holds
exit:   mov r7, #1
        svc #0

@ Gives the turn r3 away, and waits for the next one.
hand:   str r3, [r4, #48]
        add r3, r3, #1
wait:   ldr r5, [r4, #48]
        cmp r5, r3
        bne wait
        bx lr

other:  mov r3, #1
        bl wait
        mov r8, r4
        bl take
        mov r3, #2
        bl hand
        add r8, r4, #8
        bl take
        mov r3, #4
        str r3, [r4, #48]
        mov r0, #0
        b exit

@ Takes both nodes of the stack at r8, and puts the one that was its top back.
take:   ldrex r1, [r8]
        ldr r2, [r1]
        strex r5, r2, [r8]
        cmp r5, #0
        bne take
below:  ldrex r2, [r8]
        ldr r5, [r2]
        strex r6, r5, [r8]
        cmp r6, #0
        bne below
put:    ldrex r5, [r8]
        str r5, [r1]
        strex r6, r1, [r8]
        cmp r6, #0
        bne put
        bx lr
        .data
stacks: .word upper             @ each word that matters is in a row of its own
        .word 0
        .word above
        .word 0
upper:  .word lower
        .word 0
lower:  .word 0
        .word 0
above:  .word under
        .word 0
under:  .word 0
        .word 0
        .word 0                 @ whose turn it is: thread 1's where this is odd
        .word 0
