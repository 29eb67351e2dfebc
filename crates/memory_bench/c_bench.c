/* Makes so many accesses of one thread that has its memory to itself, and tells the nanoseconds of one: the least of so many
   turns. Behind them stands the sum of what the accesses found, or of the store-exclusives that succeeded.

       c_bench KIND ROUNDS TURNS

   A kind is `pair`, `store` or `load`, of eight bytes; behind it stands by what it is made: nothing is the library, with the
   width as a word of the call, `8` (and `load4`) the library's call for that width, `_c` the memory in plain C, and `_call` that
   as a call which isn't inlined. By `back8` and `back_c` another thread's stores change the word and change it back between the
   two of a pair, and by `back_ex8` and `back_ex_c` its store-exclusives. */
#include "llsc.h"

#include HEADER /* the memory in plain C */

#include <stdio.h>
#include <string.h>
#include <time.h>

static uint8_t bytes[LLSC_MIN_BYTES];
static llsc_thread t, u;
static resv plain, other = {.id = 1};

enum { AT = 0x2000 };

__attribute__((noinline)) static uint64_t load_call(resv *thread, uint32_t addr) { return m_ld(thread, addr, 8); }

__attribute__((noinline)) static uint64_t load4_call(resv *thread, uint32_t addr) { return m_ld(thread, addr, 4); }

__attribute__((noinline)) static void store_call(resv *thread, uint32_t addr, uint64_t value) { m_st(thread, addr, 8, value); }

__attribute__((noinline)) static uint64_t load_ex_call(resv *thread, uint32_t addr) { return m_ldex(thread, addr, 8); }

__attribute__((noinline)) static int store_ex_call(resv *thread, uint32_t addr, uint64_t value) {
    return m_stex(thread, addr, 8, value);
}

static void must(uint32_t answer) {
    if (answer != LLSC_DONE)
        abort();
}

/* Makes so many rounds of accesses, where the kind has this name. */
#define REPEAT(NAME, ...)                                                                                                         \
    if (strcmp(kind, NAME) == 0) {                                                                                               \
        for (uint32_t k = 0; k < rounds; k += 1) {                                                                               \
            __VA_ARGS__                                                                                                          \
        }                                                                                                                        \
        return sum;                                                                                                              \
    }

/* Makes the accesses, and adds up what they found. */
static uint64_t make(const char *kind, uint32_t rounds) {
    uint64_t sum = 0, value;
    uint32_t failed;
    REPEAT("pair", must((llsc_load_ex)(&t, AT, 8, &value)); must((llsc_store_ex)(&t, AT, 8, value + 1, &failed)); sum += !failed;)
    REPEAT("pair8", must(llsc_load_ex8(&t, AT, &value)); must(llsc_store_ex8(&t, AT, value + 1, &failed)); sum += !failed;)
    REPEAT("pair_c", value = m_ldex(&plain, AT, 8); sum += !m_stex(&plain, AT, 8, value + 1);)
    REPEAT("pair_call", value = load_ex_call(&plain, AT); sum += !store_ex_call(&plain, AT, value + 1);)
    REPEAT("store", must(llsc_store(&t, AT, 8, 7)); sum += 1;)
    REPEAT("store8", must(llsc_store8(&t, AT, 7)); sum += 1;)
    REPEAT("store_c", m_st(&plain, AT, 8, 7); sum += 1;)
    REPEAT("store_call", store_call(&plain, AT, 7); sum += 1;)
    REPEAT("load", must((llsc_load)(&t, AT, 8, &value)); sum += value;)
    REPEAT("load8", must(llsc_load8(&t, AT, &value)); sum += value;)
    REPEAT("load4", must(llsc_load4(&t, AT, &value)); sum += value;)
    REPEAT("load_c", sum += m_ld(&plain, AT, 8);)
    REPEAT("load_call", sum += load_call(&plain, AT);)
    REPEAT("load4_call", sum += load4_call(&plain, AT);)
    abort();
}

/* The other thread's store-exclusives, each behind a load-exclusive of its own. */
static void library_writes(uint64_t value) {
    uint64_t found;
    uint32_t failed;
    must(llsc_load_ex8(&u, AT, &found));
    must(llsc_store_ex8(&u, AT, value, &failed));
    if (failed)
        abort();
}

static void plain_writes(uint64_t value) {
    m_ldex(&other, AT, 8);
    if (m_stex(&other, AT, 8, value))
        abort();
}

/* Makes pairs, between whose two the other thread changes the word and changes it back, and counts those that succeed. */
static uint64_t make_back(const char *kind, uint32_t rounds) {
    uint64_t sum = 0, value;
    uint32_t failed;
    REPEAT("back8", must(llsc_load_ex8(&t, AT, &value)); must(llsc_store8(&u, AT, value + 1)); must(llsc_store8(&u, AT, value));
           must(llsc_store_ex8(&t, AT, value + 1, &failed)); sum += !failed;)
    REPEAT("back_c", value = m_ldex(&plain, AT, 8); m_st(&other, AT, 8, value + 1); m_st(&other, AT, 8, value);
           sum += !m_stex(&plain, AT, 8, value + 1);)
    REPEAT("back_ex8", must(llsc_load_ex8(&t, AT, &value)); library_writes(value + 1); library_writes(value);
           must(llsc_store_ex8(&t, AT, value + 1, &failed)); sum += !failed;)
    REPEAT("back_ex_c", value = m_ldex(&plain, AT, 8); plain_writes(value + 1); plain_writes(value);
           sum += !m_stex(&plain, AT, 8, value + 1);)
    abort();
}

static double now(void) {
    struct timespec time;
    clock_gettime(CLOCK_MONOTONIC, &time);
    return (double)time.tv_sec * 1e9 + (double)time.tv_nsec;
}

int main(int argc, char **argv) {
    if (argc != 4)
        return 2;
    uint32_t rounds = (uint32_t)atoi(argv[2]);
    int turns = atoi(argv[3]);
    double least = 1e300;
    uint64_t sum = 0;
    must(llsc_open(&t, bytes, sizeof bytes, 2, LLSC_MAX_CLASSES, LLSC_MAX_LIMIT, 0));
    must(llsc_split(&t, &u));
    llsc_init(sizeof bytes);
    for (int turn = 0; turn < turns; turn += 1) {
        double begun = now();
        sum += strncmp(argv[1], "back", 4) == 0 ? make_back(argv[1], rounds) : make(argv[1], rounds);
        double spent = now() - begun;
        least = spent < least ? spent : least;
    }
    printf("%.3f %llu\n", least / rounds, (unsigned long long)sum);
    must(llsc_end(&t));
    must(llsc_end(&u));
    return 0;
}
