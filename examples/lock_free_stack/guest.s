@ A stack that needs no lock, for any number of threads. Each thread pushes three nodes, pops and pushes two of them some
@ times over, and pops three at the end, whosever they are. A compare-and-swap on the top would be fooled where a node was
@ popped and pushed again in between; a store-exclusive is not. When all are done, each thread leaves with 0 where each node
@ came back once and the stack is empty, and with 1 where it isn't so.
        mov r8, #8192           @ the address of the top node, 0 where there is none
        mov r10, r1             @ the number of threads
        add r9, r8, #64         @ this thread's nodes, eight bytes each: the address of the node below, and a value
        add r9, r9, r0, lsl #5
        mov r4, #1              @ the value of the next node
fill:   str r4, [r9, #4]
        mov r0, r9
        bl push
        add r9, r9, #8
        add r4, r4, #1
        cmp r4, #4
        bne fill
        mov r4, #4              @ the times that two nodes are popped and pushed again
again:  bl pop
        mov r5, r0
        bl pop
        mov r6, r0
        mov r0, r5
        bl push
        mov r0, r6
        bl push
        subs r4, r4, #1
        bne again
        mov r4, #3              @ the nodes to be popped at the end
        mov r5, #0              @ the sum of their values
empty:  bl pop
        ldr r1, [r0, #4]
        add r5, r5, r1
        subs r4, r4, #1
        bne empty
        add r0, r8, #8          @ the sum of all threads
        mov r1, r5
        bl count
        add r0, r8, #16         @ the number of threads that are done
        mov r1, #1
        bl count
wait:   ldr r1, [r8, #16]
        cmp r1, r10
        bne wait
        mov r0, #0
        ldr r1, [r8, #8]
        mov r2, #6              @ 1 and 2 and 3, of each thread
        mul r2, r10, r2
        cmp r1, r2
        movne r0, #1
        ldr r1, [r8]
        cmp r1, #0
        movne r0, #1
        mov r7, #1              @ exit
        svc #0

@ Pushes the node at r0.
push:   ldrex r1, [r8]
        str r1, [r0]            @ it stands on the top; it isn't in the row that is reserved, up to rows of 64 bytes
        strex r2, r0, [r8]
        cmp r2, #0
        bne push
        bx lr

@ Pops a node, whose address is in r0 then. The stack isn't empty: the thread has popped fewer than it pushed.
pop:    ldrex r0, [r8]
        ldr r1, [r0]            @ the node below
        strex r2, r1, [r8]
        cmp r2, #0
        bne pop
        bx lr

@ Adds r1 to the word at r0.
count:  ldrex r2, [r0]
        add r2, r2, r1
        strex r3, r2, [r0]
        cmp r3, #0
        bne count
        bx lr
