@ Where threads begin. sp is the end of the thread's stack; each leaves with the code that its function gives.
        .text

@ Those that begin by themselves: the thread's number is in r0, the number of them in r1.
        .global _start
_start: bl      guest
        b       leave

@ Those that are started: the argument of the start is in r0, the thread's number in r1.
        .global begin
begin:  bl      work
leave:  mov     r7, #1          @ exit
        svc     #0
