/* The exclusives of QEMU where it runs a program of several threads in user mode, in plain C and without the translated code
   around them, for `c_bench` to measure the library of `llsc_c` beside them. Loads and stores are those of the host; a
   load-exclusive keeps the address and the value that it found in the CPU's state, and a store-exclusive to this address is one
   compare-and-swap with that value. What is given up is to know whether anybody wrote: a store-exclusive succeeds behind a word
   that was changed and changed back. */
#ifndef PLAIN_VALUES_H
#define PLAIN_VALUES_H

#include <stdatomic.h>
#include <stdint.h>
#include <stdlib.h>

static _Atomic uint64_t *cells; /* the memory, of eight bytes each */

/* A CPU's state, as far as exclusives go. It is in memory for every access, as translated code has it, and no register keeps it. */
typedef struct {
    int id;                             /* its number, which has no use here */
    _Atomic uint64_t *volatile watched; /* where its load-exclusive was; nowhere before the first, and behind a store-exclusive */
    volatile uint64_t value;            /* what that one found */
} resv;

/* A memory of so many zeros. */
static inline void llsc_init(uint32_t bytes) {
    cells = (_Atomic uint64_t *)calloc(bytes / 8, 8);
    if (cells == NULL)
        abort();
}

/* The place of eight bytes. Other widths there are none. */
static inline _Atomic uint64_t *cell_of(uint32_t addr, int width) {
    if (width != 8)
        abort();
    return &cells[addr / 8];
}

/* A load. */
static inline uint64_t m_ld(resv *cpu, uint32_t addr, int width) {
    (void)cpu;
    return atomic_load_explicit(cell_of(addr, width), memory_order_relaxed);
}

/* A store. */
static inline void m_st(resv *cpu, uint32_t addr, int width, uint64_t value) {
    (void)cpu;
    atomic_store_explicit(cell_of(addr, width), value, memory_order_relaxed);
}

/* A load-exclusive. */
static inline uint64_t m_ldex(resv *cpu, uint32_t addr, int width) {
    uint64_t value = m_ld(cpu, addr, width);
    cpu->value = value;
    cpu->watched = cell_of(addr, width);
    return value;
}

/* A store-exclusive, and whether it failed. */
static inline int m_stex(resv *cpu, uint32_t addr, int width, uint64_t value) {
    _Atomic uint64_t *cell = cell_of(addr, width);
    int failed = 1;
    if (cpu->watched == cell) {
        uint64_t found = cpu->value;
        failed = !atomic_compare_exchange_strong(cell, &found, value);
    }
    cpu->watched = NULL;
    return failed;
}

#endif
