/* A tiny emulator in C. Four guest threads, each a CPU on a host thread of its own, run one program on one memory: it pops two
   nodes from a stack that needs no lock, marks them as its own, and pushes them back, over and over, so that nodes are used again.

       emulator exact       exclusives by the library: the stack stays whole, and the status is 0
       emulator values      exclusives by compare-and-swap: the stack breaks, and the status is 1

   By compare-and-swap a store-exclusive succeeds where its word has the value that the load-exclusive found. So has the top of the
   stack where its node was popped, the next one with it, and the first was pushed again: what is made the top then is a node that
   somebody else holds. */
#include "llsc.h"

#include <pthread.h>
#include <sched.h>
#include <stdatomic.h>
#include <stdbool.h>
#include <stdio.h>
#include <string.h>

enum { THREADS = 4, ROUNDS = 2000, BYTES = LLSC_MIN_BYTES };

/* Where the guest's data lies: the address of the top node, 0 where there is none; and the nodes, each with the address of the one
   below and the mark of who holds it, 0 where nobody does. A push stores into its node between its exclusives, so no node lies in
   the row of the top, nor in another row of its class, which are LLSC_MAX_CLASSES rows apart. */
enum { TOP = 0x800, NODES = 0x1000, NODE = 16, COUNT = 2 * THREADS };

/* The registers, by what the program has them for. */
enum { ZERO, TOP_AT, NODE_AT, BELOW, FIRST, SECOND, SCRATCH, MARK, ROUND, LINK, REGISTERS };

/* The instructions. `d` is the register that one sets, `a` and `b` are those that it reads, and `n` is a number. */
enum operation {
    MOVE,        /* d = a */
    ADD,         /* d = a + n */
    SUBTRACT,    /* d = a - b */
    LOAD,        /* d = the word at a + n */
    STORE,       /* the word at a + n = b */
    LOAD_EX,     /* d = the word at a, with a reservation */
    STORE_EX,    /* the word at a = b, if nobody stored there since; then d = 0, and else 1 */
    GO_IF_ZERO,  /* to n, if a is 0 */
    GO_IF_OTHER, /* to n, if a isn't 0 */
    CALL,        /* to n; the link register says where from */
    RETURN,      /* to there */
    LEAVE        /* the thread ends, with the code n */
};

struct instruction {
    enum operation operation;
    unsigned char d, a, b;
    uint32_t n;
};

enum { MAIN = 0, POP = 16, PUSH = 32, PUSH_AGAIN = 40, BROKEN = 48 };

static const struct instruction program[] = {
    [MAIN] = {CALL, LINK, 0, 0, POP},
    {MOVE, FIRST, NODE_AT, 0, 0},
    {CALL, LINK, 0, 0, POP},
    {MOVE, SECOND, NODE_AT, 0, 0},
    {MOVE, NODE_AT, FIRST, 0, 0},
    {CALL, LINK, 0, 0, PUSH},
    {MOVE, NODE_AT, SECOND, 0, 0},
    {CALL, LINK, 0, 0, PUSH},
    {ADD, ROUND, ROUND, 0, UINT32_MAX},
    {GO_IF_OTHER, 0, ROUND, 0, MAIN},
    {LEAVE, 0, 0, 0, 0},

    [POP] = {LOAD_EX, NODE_AT, TOP_AT, 0, 0},
    {GO_IF_ZERO, 0, NODE_AT, 0, BROKEN}, /* no thread holds more than two nodes, so that there is one */
    {LOAD, BELOW, NODE_AT, 0, 0},
    {STORE_EX, SCRATCH, TOP_AT, BELOW, 0},
    {GO_IF_OTHER, 0, SCRATCH, 0, POP},
    {LOAD, SCRATCH, NODE_AT, 0, 4},
    {GO_IF_OTHER, 0, SCRATCH, 0, BROKEN}, /* somebody holds it */
    {STORE, 0, NODE_AT, MARK, 4},
    {RETURN, 0, LINK, 0, 0},

    [PUSH] = {LOAD, SCRATCH, NODE_AT, 0, 4},
    {SUBTRACT, SCRATCH, SCRATCH, MARK, 0},
    {GO_IF_OTHER, 0, SCRATCH, 0, BROKEN}, /* somebody else has taken it */
    {STORE, 0, NODE_AT, ZERO, 4},
    [PUSH_AGAIN] = {LOAD_EX, BELOW, TOP_AT, 0, 0},
    {STORE, 0, NODE_AT, BELOW, 0},
    {STORE_EX, SCRATCH, TOP_AT, NODE_AT, 0},
    {GO_IF_OTHER, 0, SCRATCH, 0, PUSH_AGAIN},
    {RETURN, 0, LINK, 0, 0},

    [BROKEN] = {LEAVE, 0, 0, 0, 1},
};

struct cpu {
    uint32_t registers[REGISTERS];
    uint32_t next;              /* the instruction that comes next */
    llsc_thread thread;         /* the guest thread, where exclusives are the library's */
    uint32_t linked_at, linked; /* where they are not: the last load-exclusive's address, and what it found */
    int code;                   /* with which the thread has left; -1 where memory refused an access */
};

static bool by_values;
static _Atomic uint32_t words[BYTES / 4]; /* the memory of compare-and-swap */

/* The accesses. Each gives false where memory refuses it: the thread has a fault then. */
static bool load(struct cpu *cpu, uint32_t addr, bool exclusive, uint32_t *value) {
    if (by_values) {
        if (addr % 4 != 0 || addr >= BYTES)
            return false;
        *value = atomic_load(&words[addr / 4]);
        if (exclusive) {
            cpu->linked_at = addr;
            cpu->linked = *value;
        }
        return true;
    }
    uint64_t found;
    if ((exclusive ? llsc_load_ex4(&cpu->thread, addr, &found) : llsc_load4(&cpu->thread, addr, &found)) != LLSC_DONE)
        return false;
    *value = (uint32_t)found;
    return true;
}

static bool store(struct cpu *cpu, uint32_t addr, uint32_t value) {
    if (!by_values)
        return llsc_store4(&cpu->thread, addr, value) == LLSC_DONE;
    if (addr % 4 != 0 || addr >= BYTES)
        return false;
    atomic_store(&words[addr / 4], value);
    return true;
}

static bool store_exclusive(struct cpu *cpu, uint32_t addr, uint32_t value, uint32_t *failed) {
    if (!by_values)
        return llsc_store_ex4(&cpu->thread, addr, value, failed) == LLSC_DONE;
    if (addr % 4 != 0 || addr >= BYTES)
        return false;
    uint32_t linked = cpu->linked;
    *failed = addr != cpu->linked_at || !atomic_compare_exchange_strong(&words[addr / 4], &linked, value);
    cpu->linked_at = UINT32_MAX;
    return true;
}

/* Runs a thread to its end. */
static void *run(void *of) {
    struct cpu *cpu = of;
    uint32_t *r = cpu->registers;
    uint32_t chance = r[MARK];
    for (;;) {
        const struct instruction *i = &program[cpu->next];
        bool sound = true;
        cpu->next += 1;
        switch (i->operation) {
        case MOVE: r[i->d] = r[i->a]; break;
        case ADD: r[i->d] = r[i->a] + i->n; break;
        case SUBTRACT: r[i->d] = r[i->a] - r[i->b]; break;
        case LOAD: sound = load(cpu, r[i->a] + i->n, false, &r[i->d]); break;
        case STORE: sound = store(cpu, r[i->a] + i->n, r[i->b]); break;
        case LOAD_EX: sound = load(cpu, r[i->a], true, &r[i->d]); break;
        case STORE_EX: sound = store_exclusive(cpu, r[i->a], r[i->b], &r[i->d]); break;
        case GO_IF_ZERO: cpu->next = r[i->a] == 0 ? i->n : cpu->next; break;
        case GO_IF_OTHER: cpu->next = r[i->a] != 0 ? i->n : cpu->next; break;
        case CALL: r[i->d] = cpu->next; cpu->next = i->n; break;
        case RETURN: cpu->next = r[i->a]; break;
        case LEAVE: cpu->code = (int)i->n; return NULL;
        }
        if (!sound) {
            cpu->code = -1;
            return NULL;
        }
        chance = 1664525 * chance + 1013904223;
        if (chance >> 24 == 0) /* so that threads come between each other anywhere, on a host of one processor too */
            sched_yield();
    }
}

static void put_word(uint8_t *bytes, uint32_t addr, uint32_t value) {
    for (unsigned k = 0; k < 4; k += 1)
        bytes[addr + k] = (uint8_t)(value >> 8 * k);
}

static uint32_t word_at(const uint8_t *bytes, uint32_t addr) {
    uint32_t value = 0;
    for (unsigned k = 0; k < 4; k += 1)
        value |= (uint32_t)bytes[addr + k] << 8 * k;
    return value;
}

/* How many nodes lie one below another, up to the first that isn't one or came before. */
static unsigned nodes_on_stack(const uint8_t *bytes) {
    bool seen[COUNT] = {false};
    unsigned count = 0;
    for (uint32_t at = word_at(bytes, TOP); at >= NODES && at < NODES + NODE * COUNT && at % NODE == 0; at = word_at(bytes, at)) {
        if (seen[(at - NODES) / NODE])
            break;
        seen[(at - NODES) / NODE] = true;
        count += 1;
    }
    return count;
}

int main(int argc, char **argv) {
    static uint8_t bytes[BYTES];
    static struct cpu cpus[THREADS];
    static llsc_thread threads[THREADS];
    pthread_t hosts[THREADS];
    if (argc != 2 || (strcmp(argv[1], "exact") != 0 && strcmp(argv[1], "values") != 0)) {
        fputs("usage: emulator exact|values\n", stderr);
        return 2;
    }
    by_values = strcmp(argv[1], "values") == 0;
    for (uint32_t k = 0; k < COUNT; k += 1)
        put_word(bytes, NODES + NODE * k, k + 1 < COUNT ? NODES + NODE * (k + 1) : 0);
    put_word(bytes, TOP, NODES);
    for (uint32_t addr = 0; addr < BYTES; addr += 4)
        words[addr / 4] = word_at(bytes, addr);
    uint32_t answer = llsc_open_all(threads, THREADS, bytes, sizeof bytes, LLSC_MAX_CLASSES, LLSC_MAX_LIMIT, 0);
    if (answer != LLSC_DONE) {
        fprintf(stderr, "emulator: no memory, by answer %u\n", answer);
        return 2;
    }

    for (uint32_t k = 0; k < THREADS; k += 1) {
        cpus[k].registers[TOP_AT] = TOP;
        cpus[k].registers[MARK] = k + 1;
        cpus[k].registers[ROUND] = ROUNDS;
        cpus[k].next = MAIN;
        cpus[k].thread = threads[k]; /* it is moved: `threads` isn't used until it comes back */
        if (pthread_create(&hosts[k], NULL, run, &cpus[k]) != 0)
            return 2;
    }
    int wrong = 0;
    for (uint32_t k = 0; k < THREADS; k += 1) {
        pthread_join(hosts[k], NULL);
        threads[k] = cpus[k].thread;
        wrong += cpus[k].code != 0;
    }

    answer = llsc_close_all(threads, THREADS, bytes, sizeof bytes);
    if (answer != LLSC_DONE) {
        fprintf(stderr, "emulator: not closed, by answer %u\n", answer);
        return 2;
    }
    for (uint32_t addr = 0; by_values && addr < BYTES; addr += 4)
        put_word(bytes, addr, words[addr / 4]);
    unsigned count = nodes_on_stack(bytes);
    printf("%s: %u of %u nodes are on the stack, and %d of %u threads met what cannot be\n", argv[1], count, (unsigned)COUNT,
           wrong, (unsigned)THREADS);
    return count != COUNT || wrong != 0;
}
