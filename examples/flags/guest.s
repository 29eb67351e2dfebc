@ Two threads that meet: each raises a flag of its own, and waits until the other's is up. Where the one ran to its end
@ before the other began, it would wait for ever.
        mov r2, #8192           @ the flags, eight bytes apart
        rsb r3, r0, #1          @ the other thread
        mov r1, #1
        str r1, [r2, r0, lsl #3]
spin:   ldr r1, [r2, r3, lsl #3]
        cmp r1, #0
        beq spin
        mov r0, #0
        mov r7, #1              @ exit
        svc #0
        .data
        .space 16
