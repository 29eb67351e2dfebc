@ Four nodes on a stack without a lock, which are used again and again: each thread, 1000 times, pops a node, waiting while there is
@ none, adds 1 to the node's count by a load and a store that aren't exclusive, and pushes the node back. It is proved that no node
@ is lost or doubled, and no addition lost, however the threads come to run beside each other (`crates/stack_runs`).
        mov r8, #8192           @ the address of the word with the address of the top node, 0 where there is none
        movw r9, #1000          @ the rounds that are left
pop:    ldrex r0, [r8]
        cmp r0, #0
        beq pop                 @ all nodes are in other hands
        ldr r1, [r0]            @ the node below, if nobody takes this one meanwhile
        strex r2, r1, [r8]      @ a compare-and-swap would be fooled where it was taken and put back, and that one wasn't
        cmp r2, #0
        bne pop
        ldr r1, [r0, #4]        @ the node is this thread's: nobody else accesses its count
        add r1, r1, #1
        str r1, [r0, #4]
push:   ldrex r1, [r8]
        str r1, [r0]            @ it stands on the top; it isn't in the row that is reserved, up to rows of 64 bytes
        strex r2, r0, [r8]
        cmp r2, #0
        bne push
        sub r9, r9, #1
        cmp r9, #0
        bne pop
        mov r0, #0
        mov r7, #1              @ exit
        svc #0

        .data
top:    .word first
        .word 0
        .word 0
        .word 0
        .word 0
        .word 0
        .word 0
        .word 0
        .word 0
        .word 0
        .word 0
        .word 0
        .word 0
        .word 0
        .word 0
        .word 0
first:  .word second            @ a node: the address of the node below, and its count
        .word 0
second: .word third
        .word 0
third:  .word fourth
        .word 0
fourth: .word 0
        .word 0
