# A stack that needs no lock, for any number of threads. Each thread pushes three nodes, pops and pushes two of them many times
# over, and pops three at the end, whosever they are. A compare-and-swap on the top would be fooled where a node was popped and
# pushed again in between; a store-conditional is not. When all are done, each thread leaves with 0 where each node came back
# once and the stack is empty, and with 1 where it isn't so. Between the exclusives of `push` and of `pop` stands an access to a
# node; a processor may let such a pair fail for ever.
        .text
        .global _start
_start: la      s0, top                 # it has the address of the top node, 0 where there is none
        mv      s1, a1                  # the number of threads
        la      s2, nodes               # this thread's nodes, eight bytes each: the address of the node below, and a value
        slli    t0, a0, 5
        add     s2, s2, t0
        li      s3, 1                   # the value of the next node
        li      s4, 4
fill:   sw      s3, 4(s2)
        mv      a0, s2
        jal     push
        addi    s2, s2, 8
        addi    s3, s3, 1
        bne     s3, s4, fill
        li      s3, 500                 # the times that two nodes are popped and pushed again
again:  jal     pop
        mv      s4, a0
        jal     pop
        mv      s5, a0
        mv      a0, s4
        jal     push
        mv      a0, s5
        jal     push
        addi    s3, s3, -1
        bnez    s3, again
        li      s3, 3                   # the nodes to be popped at the end
        li      s4, 0                   # the sum of their values
empty:  jal     pop
        lw      t0, 4(a0)
        add     s4, s4, t0
        addi    s3, s3, -1
        bnez    s3, empty
        addi    a0, s0, 8               # the sum of all threads
        mv      a1, s4
        jal     count
        addi    a0, s0, 16              # the number of threads that are done
        li      a1, 1
        jal     count
wait:   lw      t0, 16(s0)
        bne     t0, s1, wait
        fence   r, rw                   # the rest is looked at after that
        lw      t0, 8(s0)
        slli    t1, s1, 1               # 1 and 2 and 3, of each thread
        sub     t0, t0, t1
        slli    t1, t1, 1
        sub     t0, t0, t1
        lw      t1, (s0)
        or      t0, t0, t1
        snez    a0, t0
        li      a7, 93                  # exit
        ecall

# Pushes the node at a0.
push:   lr.w.aq t0, (s0)
        sw      t0, (a0)                # it stands on the top; it isn't in the row that is reserved, up to rows of 64 bytes
        sc.w.rl t1, a0, (s0)
        bnez    t1, push
        ret

# Pops a node, whose address is in a0 then. The stack isn't empty: the thread has popped fewer than it pushed.
pop:    lr.w.aq a0, (s0)
        lw      t0, (a0)                # the node below
        sc.w.rl t1, t0, (s0)
        bnez    t1, pop
        ret

# Adds a1 to the word at a0.
count:  lr.w.aq t0, (a0)
        add     t0, t0, a1
        sc.w.rl t1, t0, (a0)
        bnez    t1, count
        ret

        .bss
        .balign 64
top:    .space  64
nodes:  .space  512                     # 32 bytes of each of 16 threads
