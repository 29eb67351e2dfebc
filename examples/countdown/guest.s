@ Counts down from three, and leaves with code 0.
        mov r2, #3
next:   subs r2, r2, #1
        bne next
        mov r0, #0
        mov r7, #1
        svc #0
