@ A flag that a started thread sets. The first thread starts another with the number 7, and waits until a word isn't 0, which is
@ where the other stores that number; it leaves with the sum of what it found there and of the other's number, so with 8, and the
@ other with 0. A thread that ran only once its starter has ended would leave the word as it was, and the starter would wait
@ until its steps are used up.
        movw r0, #lo(kid)       @ where the other begins
        movt r0, #hi(kid)
        mov r1, #7              @ what it has in r0 then
        movw r7, #1             @ the call that starts a thread, 0xF0001
        movt r7, #15
        svc #0
        mov r4, r0              @ the other's number
        mov r2, #8192           @ the word
spin:   ldr r3, [r2]
        cmp r3, #0
        beq spin
        add r0, r3, r4
        mov r7, #1              @ exit
        svc #0

@ The other thread.
kid:    mov r2, #8192
        str r0, [r2]
        mov r0, #0
        mov r7, #1
        svc #0

        .data
        .space 8
