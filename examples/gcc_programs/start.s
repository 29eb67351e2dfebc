@ Where the thread begins. The program leaves with the code that `guest` gives.
        .text
        .global _start
_start: bl      guest
        mov     r7, #1          @ exit
        svc     #0
