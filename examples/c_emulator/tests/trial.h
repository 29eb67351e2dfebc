/* What the trials share. They are C11 and C++17 alike. */
#ifndef TRIAL_H
#define TRIAL_H

#ifndef _POSIX_C_SOURCE
#define _POSIX_C_SOURCE 200809L /* for barriers */
#endif

#include "llsc.h"

#include <pthread.h>
#include <sched.h>
#include <stdio.h>
#include <stdlib.h>
#include <string.h>

static int faults; /* how often something was otherwise than it is to be */

/* Tells where what was found isn't what was wanted. */
__attribute__((unused, noinline)) static void trial_same(const char *file, int line, const char *what, uint64_t found,
                                                         uint64_t wanted) {
    if (found == wanted)
        return;
    if (__atomic_fetch_add(&faults, 1, __ATOMIC_SEQ_CST) < 20)
        fprintf(stderr, "%s:%d: %s is %llu, and not %llu\n", file, line, what, (unsigned long long)found,
                (unsigned long long)wanted);
}
#define same(found, wanted) trial_same(__FILE__, __LINE__, #found, (uint64_t)(found), (uint64_t)(wanted))

/* Numbers without order, of a seed that isn't 0. */
static inline uint64_t next_number(uint64_t *seed) {
    *seed ^= *seed << 13;
    *seed ^= *seed >> 7;
    *seed ^= *seed << 17;
    return *seed;
}

/* Whether a struct has no thread. */
static inline int is_none(const llsc_thread *t) {
    static const llsc_thread none = {0, NULL};
    return memcmp(t, &none, sizeof none) == 0;
}

/* The largest value of so many bytes. */
static inline uint64_t most(uint32_t width) { return UINT64_MAX >> (64 - 8 * width); }

/* The `width` bytes from `addr` up as a value, and put there. */
static inline uint64_t value_at(const uint8_t *bytes, uint64_t addr, uint32_t width) {
    uint64_t value = 0;
    for (uint32_t k = 0; k < width; k += 1)
        value |= (uint64_t)bytes[addr + k] << 8 * k;
    return value;
}

static inline void put_at(uint8_t *bytes, uint64_t addr, uint32_t width, uint64_t value) {
    for (uint32_t k = 0; k < width; k += 1)
        bytes[addr + k] = (uint8_t)(value >> 8 * k);
}

/* What the program leaves with. */
static inline int ended(void) { return faults == 0 ? 0 : 1; }

#endif
