@ Stores five behind the program, loads it again, and leaves with it as the code.
        mov r1, #8192
        mov r0, #5
        str r0, [r1]
        mov r0, #0
        ldr r0, [r1]
        mov r7, #1
        svc #0
