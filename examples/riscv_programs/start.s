# Where the thread begins. The program leaves with the code that `guest` gives.
        .text
        .global _start
_start: call    guest
        li      a7, 93          # exit
        ecall
