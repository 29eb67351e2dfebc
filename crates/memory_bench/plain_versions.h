/* A memory by versions in plain C, for `c_bench` to measure the library of `llsc_c` beside it: the same steps, each a sequentially
   consistent access of one word, by a memory whose numbers are given when it is made, and with no test of an address, a width, a
   value or a thread. A class of rows has a tag, twice the number of its writes that are over, and 1 more while one is in flight. A
   store claims its class by making the tag odd, changes the cell, and gives the class back; a store-exclusive claims it only by the
   tag that its load-exclusive found. */
#ifndef PLAIN_VERSIONS_H
#define PLAIN_VERSIONS_H

#include <stdatomic.h>
#include <stdint.h>
#include <stdlib.h>

static struct {
    _Atomic uint64_t *tags;  /* of each class */
    _Atomic uint64_t *cells; /* of eight bytes, the lowest address in the lowest bits */
    uint64_t last_tag;       /* of a class that takes no more writes */
    uint32_t shift;          /* a row has 1 << shift bytes */
    uint32_t mask;           /* the classes, less 1 */
} memory;

/* A guest thread: the reservation that it holds, if any. */
typedef struct {
    int id; /* its number, which has no use here */
    int has;
    uint32_t row;
    uint64_t tag;
} resv;

/* A memory of so many zeros, with rows of eight bytes in 4096 classes. */
static inline void llsc_init(uint32_t bytes) {
    memory.tags = (_Atomic uint64_t *)calloc(4096, 8);
    memory.cells = (_Atomic uint64_t *)calloc(bytes / 8, 8);
    if (memory.tags == NULL || memory.cells == NULL)
        abort();
    memory.last_tag = UINT64_C(1) << 63;
    memory.shift = 3;
    memory.mask = 4095;
}

static inline _Atomic uint64_t *tag_of(uint32_t row) { return &memory.tags[row & memory.mask]; }

static inline uint64_t part_of(uint64_t cell, uint32_t addr, int width) {
    return width == 8 ? cell : cell >> 8 * (addr & 7) & ((UINT64_C(1) << 8 * width) - 1);
}

static inline uint64_t with_part(uint64_t cell, uint32_t addr, int width, uint64_t value) {
    if (width == 8)
        return value;
    uint64_t mask = ((UINT64_C(1) << 8 * width) - 1) << 8 * (addr & 7);
    return (cell & ~mask) | (value << 8 * (addr & 7) & mask);
}

/* A load. */
static inline uint64_t m_ld(resv *thread, uint32_t addr, int width) {
    (void)thread;
    return part_of(atomic_load(&memory.cells[addr / 8]), addr, width);
}

/* A write of a class that was claimed at this tag, up to its end. */
static inline void write_held(_Atomic uint64_t *tag, uint32_t addr, int width, uint64_t value, uint64_t found) {
    _Atomic uint64_t *cell = &memory.cells[addr / 8];
    atomic_store(cell, with_part(atomic_load(cell), addr, width, value));
    atomic_store(tag, found + 2);
}

/* A store, which waits for its class. */
static inline void m_st(resv *thread, uint32_t addr, int width, uint64_t value) {
    uint32_t row = addr >> memory.shift;
    _Atomic uint64_t *tag = tag_of(row);
    uint64_t found = atomic_load(tag);
    for (;;) {
        if (found == memory.last_tag)
            abort();
        if (found % 2 == 0 && atomic_compare_exchange_strong(tag, &found, found + 1))
            break;
        __builtin_ia32_pause();
        found = atomic_load(tag);
    }
    write_held(tag, addr, width, value, found);
    if (thread->has && ((thread->row ^ row) & memory.mask) == 0)
        thread->has = 0;
}

/* A load-exclusive, without a reservation where a write of the class is in flight. */
static inline uint64_t m_ldex(resv *thread, uint32_t addr, int width) {
    thread->row = addr >> memory.shift;
    thread->tag = atomic_load(tag_of(thread->row));
    thread->has = thread->tag % 2 == 0;
    return part_of(atomic_load(&memory.cells[addr / 8]), addr, width);
}

/* A store-exclusive, and whether it failed. */
static inline int m_stex(resv *thread, uint32_t addr, int width, uint64_t value) {
    uint32_t row = addr >> memory.shift;
    int has = thread->has && thread->row == row;
    uint64_t found = thread->tag;
    thread->has = 0;
    if (!has || found == memory.last_tag || !atomic_compare_exchange_strong(tag_of(row), &found, found + 1))
        return 1;
    write_held(tag_of(row), addr, width, value, found);
    return 0;
}

#endif
