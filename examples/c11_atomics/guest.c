/* Threads that share by C's own atomics (C11, <stdatomic.h>), of which the compiler makes LDREX, STREX and DMB. Each of up to 16
   threads puts two nodes on a stack that needs no lock. Then it adds the numbers from 1 to 100 to one sum, and for each of them
   takes two nodes, marks them as its own, and puts them back. It prints what it has added. When all are done, each thread looks at
   the sum and the stack: it leaves with 1 where an addition got lost, or a node got lost or was in two hands at once, and with 0
   otherwise.

   C has no load-exclusive. A compare-exchange compares values: its LDREX comes only when the node below the top was loaded
   already, so nothing tells it that the top was taken and put back in between, on other nodes than before. So the top has a count
   beside the number of its node, here as on every other machine. `examples/lock_free_stack` needs none, since there LDREX stands
   before that load. */

#include "../gcc_programs/guest.h"

#include <stdatomic.h>
#include <stdbool.h>

enum { THREADS = 16, ROUNDS = 100, ADDED = ROUNDS * (ROUNDS + 1) / 2, NODES = 2 * THREADS };

static atomic_uint sum;
static atomic_uint done; /* the threads that are through */

/* Nodes have the numbers from 1 up; 0 is none. */
static atomic_uint top;                /* a node in the low half, and a count of changes in the high one */
static atomic_uint below[NODES + 1];
static atomic_uint holders[NODES + 1]; /* who has the node, by the thread's number plus 1; 0 for the stack */

static unsigned node_of(unsigned word) { return word & 0xFFFF; }
static unsigned changed(unsigned word, unsigned node) { return ((word >> 16) + 1) << 16 | node; }

static void put(unsigned node) {
    unsigned seen = atomic_load(&top);
    do
        atomic_store(&below[node], node_of(seen));
    while (!atomic_compare_exchange_weak(&top, &seen, changed(seen, node)));
}

/* No thread has more than the two nodes that it brought, so that there is one. */
static unsigned take(void) {
    unsigned seen = atomic_load(&top);
    while (!atomic_compare_exchange_weak(&top, &seen, changed(seen, atomic_load(&below[node_of(seen)]))))
        continue;
    return node_of(seen);
}

/* Whether so many nodes lie on the stack. */
static bool is_whole(unsigned count) {
    unsigned nodes = 0;
    for (unsigned node = node_of(atomic_load(&top)); node != 0 && nodes <= count; node = atomic_load(&below[node]))
        nodes += 1;
    return nodes == count;
}

int guest(unsigned thread, unsigned threads) {
    bool sound = true;
    put(2 * thread + 1);
    put(2 * thread + 2);
    for (unsigned number = 1; number <= ROUNDS; number += 1) {
        unsigned first = take(), second = take();
        sound &= atomic_exchange(&holders[first], thread + 1) == 0;
        sound &= atomic_exchange(&holders[second], thread + 1) == 0;
        atomic_fetch_add(&sum, number);
        sound &= atomic_exchange(&holders[first], 0) == thread + 1;
        put(first);
        sound &= atomic_exchange(&holders[second], 0) == thread + 1;
        put(second);
    }
    print("thread ");
    print_number(thread);
    print(" of ");
    print_number(threads);
    print(" added ");
    print_number(ADDED);
    print("\n");
    atomic_fetch_add(&done, 1);
    while (atomic_load(&done) != threads)
        __asm__ volatile("yield");
    return !sound || atomic_load(&sum) != threads * ADDED || !is_whole(2 * threads);
}
