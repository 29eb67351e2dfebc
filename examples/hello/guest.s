@ Prints a line, gives the processor to other threads, and leaves with the answer to that, which is 0.
        mov r0, #1              @ descriptor 1
        add r1, pc, #24         @ the text behind the code
        mov r2, #20             @ its bytes
        mov r7, #4              @ write
        svc #0
        mov r7, #158            @ sched_yield
        svc #0
        mov r7, #1              @ exit
        svc #0
        .word 0x6c6c6548        @ Hell
        .word 0x7266206f        @ o fr
        .word 0x61206d6f        @ om a
        .word 0x65756720        @  gue
        .word 0x0a2e7473        @ st. and a newline
