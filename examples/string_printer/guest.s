@ Prints strings that end with a zero byte, and leaves with the number of bytes that were printed.
        mov r6, #0              @ bytes so far
        movw r0, #lo(first)
        movt r0, #hi(first)
        bl print
        movw r0, #lo(second)
        movt r0, #hi(second)
        bl print
        mov r0, r6
        mov r7, #1              @ exit
        svc #0

@ Prints the string at r0, and adds its bytes to r6.
print:  mov r1, r0
        mov r2, #0
count:  ldrb r3, [r0], #1
        cmp r3, #0
        addne r2, r2, #1
        bne count
        mov r0, #1              @ descriptor 1
        mov r7, #4              @ write
        svc #0
        add r6, r6, r0
        bx lr

first:  .word 0x65722041        @ A re
        .word 0x76726573        @ serv
        .word 0x6f697461        @ atio
        .word 0x7369206e        @ n is
        .word 0x736f6c20        @  los
        .word 0x00000a74        @ t and a newline
second: .word 0x61207962        @ by a
        .word 0x7720796e        @ ny w
        .word 0x65746972        @ rite
        .word 0x206e6920        @  in
        .word 0x77746562        @ betw
        .word 0x2e6e6565        @ een.
        .word 0x0000000a        @  and a newline
