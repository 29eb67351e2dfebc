# Where a thread begins: its number is in a0, the number of threads in a1, and sp is the end of its stack.
        .text
        .global _start
_start: call    guest                   # a0 and a1 are its arguments
        li      a7, 93                  # exit, with its result as the code
        ecall
