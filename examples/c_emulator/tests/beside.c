/* Threads beside each other, 1, 4, 8 and 16 of them, or so many as the second word says. The first word is how often each does what
   it does. */
#include "trial.h"

enum { BYTES = LLSC_MIN_BYTES };

static uint8_t bytes[BYTES], left[BYTES];
static llsc_thread t[LLSC_MAX_THREADS];
static unsigned threads, rounds;
static pthread_barrier_t barrier;

struct job {
    void (*work)(unsigned);
    unsigned number;
    pthread_t host;
};

static void *go(void *of) {
    struct job *job = (struct job *)of;
    job->work(job->number);
    return NULL;
}

/* All threads work on a memory that begins with these bytes, each on a host thread of its own; what they leave is in `left`. */
static void beside(void (*work)(unsigned), uint64_t classes) {
    static struct job jobs[LLSC_MAX_THREADS];
    same(llsc_open_all(t, threads, bytes, BYTES, classes, LLSC_MAX_LIMIT, 0), LLSC_DONE);
    for (unsigned k = 0; k < threads; k += 1) {
        jobs[k].work = work;
        jobs[k].number = k;
        if (pthread_create(&jobs[k].host, NULL, go, &jobs[k]) != 0)
            abort();
    }
    for (unsigned k = 0; k < threads; k += 1)
        pthread_join(jobs[k].host, NULL);
    same(llsc_close_all(t, threads, left, BYTES), LLSC_DONE);
}

static uint32_t word(llsc_thread *at, uint64_t addr) {
    uint64_t value = 0;
    same(llsc_load4(at, addr, &value), LLSC_DONE);
    return (uint32_t)value;
}

/* Four counters of 1, 2, 4 and 8 bytes, the first three of them in one row, to which each thread adds 1 in turn. */
enum { COUNTERS = 0x108 };

static void count(unsigned number) {
    static const uint32_t widths[4] = {1, 2, 4, 8};
    llsc_thread *at = &t[number];
    for (unsigned k = 0; k < rounds; k += 1) {
        uint32_t width = widths[(k + number) & 3], failed = 0;
        uint64_t addr = width == 8 ? COUNTERS - 8 : COUNTERS + width, value;
        do {
            same(llsc_load_ex(at, addr, width, &value), LLSC_DONE);
            same(llsc_store_ex(at, addr, width, (value + 1) & most(width), &failed), LLSC_DONE);
        } while (failed);
    }
}

static void counter(void) {
    uint64_t each[4] = {0, 0, 0, 0};
    memset(bytes, 0, BYTES);
    for (unsigned number = 0; number < threads; number += 1)
        for (unsigned k = 0; k < rounds; k += 1)
            each[(k + number) & 3] += 1;
    beside(count, LLSC_MAX_CLASSES);
    put_at(bytes, COUNTERS + 1, 1, each[0]);
    put_at(bytes, COUNTERS + 2, 2, each[1]);
    put_at(bytes, COUNTERS + 4, 4, each[2]);
    put_at(bytes, COUNTERS - 8, 8, each[3]);
    same(memcmp(left, bytes, BYTES), 0);
}

/* A stack whose nodes are used again. A node has the address of the one below, and the mark of who holds it. */
enum { TOP = 0x800, NODES = 0x1000, NODE = 16 };

static uint32_t pop(llsc_thread *at) {
    uint64_t top;
    uint32_t failed = 0;
    do {
        same(llsc_load_ex4(at, TOP, &top), LLSC_DONE);
        if (top == 0)
            return 0;
        same(llsc_store_ex4(at, TOP, word(at, top), &failed), LLSC_DONE);
    } while (failed);
    return (uint32_t)top;
}

static void push(llsc_thread *at, uint32_t node) {
    uint64_t top;
    uint32_t failed = 0;
    do {
        same(llsc_load_ex4(at, TOP, &top), LLSC_DONE);
        same(llsc_store4(at, node, top), LLSC_DONE);
        same(llsc_store_ex4(at, TOP, node, &failed), LLSC_DONE);
    } while (failed);
}

static void pop_and_push(unsigned number) {
    llsc_thread *at = &t[number];
    for (unsigned k = 0; k < rounds; k += 1) {
        uint32_t node[2];
        for (unsigned j = 0; j < 2; j += 1) {
            node[j] = pop(at);
            same(node[j] != 0, 1); /* there are two for each thread */
            same(word(at, node[j] + 4), 0);
            same(llsc_store4(at, node[j] + 4, number + 1), LLSC_DONE);
        }
        for (unsigned j = 0; j < 2; j += 1) {
            same(word(at, node[j] + 4), number + 1);
            same(llsc_store4(at, node[j] + 4, 0), LLSC_DONE);
            push(at, node[j]);
        }
    }
}

static void stack(void) {
    unsigned found = 0;
    memset(bytes, 0, BYTES);
    for (unsigned k = 0; k < 2 * threads; k += 1)
        put_at(bytes, NODES + NODE * k, 4, k + 1 < 2 * threads ? NODES + NODE * (k + 1) : 0);
    put_at(bytes, TOP, 4, NODES);
    beside(pop_and_push, LLSC_MAX_CLASSES);
    for (uint64_t node = value_at(left, TOP, 4); node != 0 && found <= 2 * threads; node = value_at(left, node, 4))
        found += 1;
    same(found, 2 * threads);
}

/* A word that is loaded exclusively and then stored to by all others, each as it was: the store-exclusive fails, unless there are
   no others. Whose turn it is goes round. */
enum { DISTURBED = 0x400 };

static void disturb(unsigned number) {
    llsc_thread *at = &t[number];
    unsigned times = rounds < 200 ? rounds : 200;
    for (unsigned k = 0; k < times; k += 1) {
        uint64_t value = 0;
        uint32_t failed = 9;
        int mine = k % threads == number;
        if (mine)
            same(llsc_load_ex8(at, DISTURBED, &value), LLSC_DONE);
        pthread_barrier_wait(&barrier);
        if (!mine)
            same(llsc_store1(at, DISTURBED + number % 8, 7), LLSC_DONE);
        pthread_barrier_wait(&barrier);
        if (mine) {
            same(llsc_store_ex8(at, DISTURBED, value, &failed), LLSC_DONE);
            same(failed, threads > 1);
        }
    }
}

static void disturbed(void) {
    memset(bytes, 7, BYTES);
    beside(disturb, LLSC_MAX_CLASSES);
    same(memcmp(left, bytes, BYTES), 0);
}

/* Each thread stores to a byte of its own, two threads' bytes and a counter of exclusives in each row: no store touches a byte
   beside its own. */
static void store_beside(unsigned number) {
    llsc_thread *at = &t[number];
    uint64_t row = 8 * (number / 2), value = 0;
    uint32_t failed = 0;
    for (unsigned k = 1; k <= rounds; k += 1) {
        same(llsc_store1(at, row + number % 2, k & 255), LLSC_DONE);
        same(llsc_load1(at, row + number % 2, &value), LLSC_DONE);
        same(value, k & 255);
        do {
            same(llsc_load_ex4(at, row + 4, &value), LLSC_DONE);
            same(llsc_store_ex4(at, row + 4, value + 1, &failed), LLSC_DONE);
        } while (failed);
    }
}

static void neighbours(void) {
    memset(bytes, 0, BYTES);
    beside(store_beside, LLSC_MAX_CLASSES);
    for (unsigned k = 0; k < threads; k += 1) {
        put_at(bytes, 8 * (k / 2) + k % 2, 1, rounds & 255);
        put_at(bytes, 8 * (k / 2) + 4, 4, value_at(bytes, 8 * (k / 2) + 4, 4) + rounds);
    }
    same(memcmp(left, bytes, BYTES), 0);
}

/* Each thread stores to a row of its own, all of one class: where a store finds the class busy, nothing is stored; those that try
   again get through. */
static void store_or_not(unsigned number) {
    llsc_thread *at = &t[number];
    uint64_t addr = 8 * number;
    uint32_t last = 0;
    for (unsigned k = 1; k <= rounds; k += 1) {
        uint32_t answer = llsc_store_now4(at, addr, k);
        same(answer == LLSC_DONE || (answer == LLSC_BUSY && threads > 1), 1);
        if (answer == LLSC_DONE)
            last = k;
        same(word(at, addr), last);
        switch (k % 5) {
        case 0: same(llsc_store(at, addr, 8, last), LLSC_DONE); break;
        case 1: same(llsc_store1(at, addr, last & 0xFF), LLSC_DONE); break;
        case 2: same(llsc_store2(at, addr, last & 0xFFFF), LLSC_DONE); break;
        case 3: same(llsc_store4(at, addr, last), LLSC_DONE); break;
        default: same(llsc_store8(at, addr, last), LLSC_DONE);
        }
        same(word(at, addr), last);
    }
    same(llsc_store4(at, addr, rounds), LLSC_DONE);
}

static void busy(void) {
    memset(bytes, 0, BYTES);
    beside(store_or_not, 1);
    for (unsigned k = 0; k < threads; k += 1)
        put_at(bytes, 8 * k, 4, rounds);
    same(memcmp(left, bytes, BYTES), 0);
}

/* Each thread stores its round's number to its own word, and then loads that of the next. All stands in one order: of two threads
   that look at each other, not both find a number from before the other's store. */
enum { MOST_ROUNDS = 20000 };

static uint32_t found[LLSC_MAX_THREADS][MOST_ROUNDS + 1]; /* in that round, of the next thread */

static void store_and_load(unsigned number) {
    llsc_thread *at = &t[number];
    for (unsigned k = 1; k <= rounds; k += 1) {
        same(llsc_store4(at, 64 * number, k), LLSC_DONE);
        found[number][k] = word(at, 64 * (number ^ 1));
    }
}

static void one_order(void) {
    memset(bytes, 0, BYTES);
    beside(store_and_load, LLSC_MAX_CLASSES);
    for (unsigned number = 0; number < threads && threads > 1; number += 1)
        for (unsigned k = 1; k <= rounds; k += 1) {
            uint32_t unseen = found[number][k] + 1; /* the first store of the other's that wasn't there yet */
            if (unseen <= rounds)
                same(found[number ^ 1][unseen] >= k, 1);
        }
}

int main(int argc, char **argv) {
    static const unsigned counts[4] = {1, 4, 8, 16};
    unsigned only = argc > 2 ? (unsigned)atoi(argv[2]) : 0;
    rounds = argc > 1 ? (unsigned)atoi(argv[1]) : 2000;
    if (rounds > MOST_ROUNDS)
        rounds = MOST_ROUNDS;
    for (unsigned k = 0; k < 4; k += 1) {
        threads = counts[k];
        if (only != 0 && threads != only)
            continue;
        pthread_barrier_init(&barrier, NULL, threads);
        counter();
        stack();
        disturbed();
        neighbours();
        busy();
        one_order();
        pthread_barrier_destroy(&barrier);
    }
    return ended();
}
