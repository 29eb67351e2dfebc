@ Where a thread begins: its number is in r0, the number of threads in r1, and sp is the end of its stack.
        .text
        .global _start
_start: bl      guest           @ r0 and r1 are its arguments
        mov     r7, #1          @ exit, with its result as the code
        svc     #0
