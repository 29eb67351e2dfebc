# Sixteen counters, eight bytes apart, and any number of threads. Each round steps a thread's random number, whose upper four
# bits choose the counter to which one is added; the number begins at one that depends on the thread's own. A thread has 1000
# rounds. When all are done, each thread leaves with 0 where the counters add up to all rounds, and with 1 where an addition
# got lost.
        .text
        .global _start
_start: la      s0, counters
        li      s1, 1000                # the rounds to go
        addi    s2, a0, 1               # the random number, which isn't 0
        slli    t0, s2, 16
        xor     s2, s2, t0
loop:   slli    t0, s2, 13              # a shift register (Marsaglia, Xorshift RNGs, 2003)
        xor     s2, s2, t0
        srli    t0, s2, 17
        xor     s2, s2, t0
        slli    t0, s2, 5
        xor     s2, s2, t0
        srli    t0, s2, 28
        slli    t0, t0, 3
        add     t0, s0, t0
1:      lr.w    t1, (t0)
        addi    t1, t1, 1
        sc.w    t2, t1, (t0)            # 0 if nobody wrote the counter since
        bnez    t2, 1b
        addi    s1, s1, -1
        bnez    s1, loop
        addi    t0, s0, 128             # the number of threads that are done
2:      lr.w    t1, (t0)
        addi    t1, t1, 1
        sc.w.rl t2, t1, (t0)            # what was added is seen before that
        bnez    t2, 2b
3:      lw      t1, (t0)
        bne     t1, a1, 3b
        fence   r, rw                   # the counters are looked at after that
        li      t1, 0                   # their sum
4:      lw      t2, (s0)
        add     t1, t1, t2
        addi    s0, s0, 8
        bne     s0, t0, 4b
        li      t2, 1000
5:      sub     t1, t1, t2              # 1000 rounds of each thread
        addi    a1, a1, -1
        bnez    a1, 5b
        snez    a0, t1
        li      a7, 93                  # exit
        ecall

        .bss
        .balign 8
counters: .space 136                    # sixteen counters, and behind them the threads that are done
