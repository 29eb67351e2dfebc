/* The exclusives of dynarmic, in plain C and without the translated code around them, for `c_bench` to measure the library of
   `llsc_c` beside them. A monitor has for each processor one address that is reserved, and the value found there, all behind one
   spin lock. A load-exclusive writes both; a store-exclusive looks for its own reservation, ends those of all processors for the
   address, and stores by a compare-and-swap with its value. Loads and stores are those of the host and don't look at the monitor.
   What is given up is to see plain stores: they make a store-exclusive fail only where another value is left, and it succeeds
   behind a word that they changed and changed back. */
#ifndef PLAIN_MONITOR_H
#define PLAIN_MONITOR_H

#include <stdatomic.h>
#include <stdint.h>
#include <stdlib.h>

enum { PROCESSORS = 4 };

#define NOWHERE UINT64_MAX /* no address */

/* What is behind the lock is in memory for every access, and no register keeps it. */
static struct {
    atomic_int locked;
    volatile uint64_t addresses[PROCESSORS]; /* that are reserved */
    volatile uint64_t values[PROCESSORS];    /* that their load-exclusives found */
    _Atomic uint64_t *cells;                 /* the memory, of eight bytes each */
} monitor;

/* A processor's state, as far as exclusives go. */
typedef struct {
    int id;                     /* its number */
    volatile unsigned char has; /* whether a load-exclusive has had no store-exclusive behind it yet */
} resv;

/* A memory of so many zeros, and no reservation. */
static inline void llsc_init(uint32_t bytes) {
    monitor.cells = (_Atomic uint64_t *)calloc(bytes / 8, 8);
    if (monitor.cells == NULL)
        abort();
    for (int k = 0; k < PROCESSORS; k += 1)
        monitor.addresses[k] = NOWHERE;
}

static inline void monitor_lock(void) {
    while (atomic_exchange_explicit(&monitor.locked, 1, memory_order_acquire) != 0)
        __builtin_ia32_pause();
}

static inline void monitor_unlock(void) { atomic_store_explicit(&monitor.locked, 0, memory_order_release); }

/* The place of eight bytes. Other widths there are none. */
static inline _Atomic uint64_t *cell_of(uint32_t addr, int width) {
    if (width != 8)
        abort();
    return &monitor.cells[addr / 8];
}

/* A load. */
static inline uint64_t m_ld(resv *processor, uint32_t addr, int width) {
    (void)processor;
    return atomic_load_explicit(cell_of(addr, width), memory_order_relaxed);
}

/* A store. */
static inline void m_st(resv *processor, uint32_t addr, int width, uint64_t value) {
    (void)processor;
    atomic_store_explicit(cell_of(addr, width), value, memory_order_relaxed);
}

/* A load-exclusive. */
static inline uint64_t m_ldex(resv *processor, uint32_t addr, int width) {
    processor->has = 1;
    monitor_lock();
    monitor.addresses[processor->id] = addr;
    uint64_t value = m_ld(processor, addr, width);
    monitor.values[processor->id] = value;
    monitor_unlock();
    return value;
}

/* A store-exclusive, and whether it failed. */
static inline int m_stex(resv *processor, uint32_t addr, int width, uint64_t value) {
    int failed = 1;
    if (!processor->has)
        return 1;
    processor->has = 0;
    monitor_lock();
    if (monitor.addresses[processor->id] == addr) {
        for (int k = 0; k < PROCESSORS; k += 1)
            if (monitor.addresses[k] == addr)
                monitor.addresses[k] = NOWHERE;
        uint64_t found = monitor.values[processor->id];
        failed = !atomic_compare_exchange_strong(cell_of(addr, width), &found, value);
    }
    monitor_unlock();
    return failed;
}

#endif
