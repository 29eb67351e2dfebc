/* Want of memory: each call of `malloc` in turn finds none. Linked by --wrap=malloc, --wrap=realloc and --wrap=free, so that the
   heap of the library counts its blocks here. */
#include "trial.h"

enum { BYTES = LLSC_MIN_BYTES, THREADS = 5, ALWAYS = 1000000 };

static uint8_t bytes[BYTES], left[BYTES];
static llsc_thread t[THREADS];
static int granted = ALWAYS; /* the calls that still have memory */
static int blocks;           /* that are not freed */

#ifdef __cplusplus
extern "C" {
#endif
void *__real_malloc(size_t n);
void *__real_realloc(void *p, size_t n);
void __real_free(void *p);
void *__wrap_malloc(size_t n);
void *__wrap_realloc(void *p, size_t n);
void __wrap_free(void *p);

void *__wrap_malloc(size_t n) {
    granted -= 1;
    if (granted < 0)
        return NULL;
    blocks += 1;
    return __real_malloc(n);
}

void *__wrap_realloc(void *p, size_t n) {
    granted -= 1;
    if (granted < 0)
        return NULL;
    return __real_realloc(p, n);
}

void __wrap_free(void *p) {
    blocks -= p != NULL;
    __real_free(p);
}
#ifdef __cplusplus
}
#endif

/* Every struct has no thread, and all blocks are freed. */
static void nothing_left(void) {
    for (unsigned k = 0; k < THREADS; k += 1)
        same(is_none(&t[k]), 1);
    same(blocks, 0);
}

/* Opens one memory by as many calls of the heap as it takes, each of which fails once. */
static void opens(void) {
    uint32_t answer = LLSC_NO_MEMORY;
    int calls = 0;
    for (; answer != LLSC_DONE && calls < 100; calls += 1) {
        granted = calls;
        answer = llsc_open(&t[0], bytes, BYTES, THREADS, LLSC_MAX_CLASSES, LLSC_MAX_LIMIT, 0);
        granted = ALWAYS;
        if (answer != LLSC_DONE) {
            same(answer, LLSC_NO_MEMORY);
            nothing_left();
        }
    }
    same(calls > 1 && calls < 100, 1);
    same(llsc_end(&t[0]), LLSC_DONE);
    nothing_left();
}

/* Splits threads off, where the heap fails at this call, counted through all splits: the threads are there still, and are split
   where it is tried again. */
static int splits(int fails_at) {
    int wanting = 0, before;
    same(llsc_open(&t[0], bytes, BYTES, THREADS, LLSC_MAX_CLASSES, LLSC_MAX_LIMIT, 0), LLSC_DONE);
    granted = fails_at;
    for (unsigned k = THREADS - 1; k > 0; k -= 1) {
        before = blocks;
        uint32_t answer = llsc_split(&t[0], &t[k]);
        if (answer == LLSC_DONE)
            continue;
        same(answer, LLSC_NO_MEMORY);
        same(is_none(&t[k]), 1);
        same(blocks, before);
        wanting = 1;
        granted = ALWAYS;
        k += 1;
    }
    granted = 0; /* nothing else asks for memory */
    memset(left, 0, BYTES);
    same(llsc_close_all(t, THREADS, left, BYTES), LLSC_DONE);
    same(memcmp(left, bytes, BYTES), 0);
    granted = ALWAYS;
    nothing_left();
    return wanting;
}

/* All at once. */
static void opens_all(void) {
    uint32_t answer = LLSC_NO_MEMORY;
    int calls = 0;
    for (; answer != LLSC_DONE && calls < 100; calls += 1) {
        granted = calls;
        answer = llsc_open_all(t, THREADS, bytes, BYTES, LLSC_MAX_CLASSES, LLSC_MAX_LIMIT, 0);
        granted = ALWAYS;
        if (answer != LLSC_DONE) {
            same(answer, LLSC_NO_MEMORY);
            nothing_left();
        }
    }
    same(calls > THREADS && calls < 100, 1);
    for (unsigned k = 0; k < THREADS; k += 1)
        same(llsc_end(&t[k]), LLSC_DONE);
    nothing_left();
}

/* No access asks for memory, nor does a join, a close or an end. */
static void accesses(void) {
    uint64_t value;
    uint32_t failed;
    same(llsc_open_all(t, THREADS, bytes, BYTES, LLSC_MAX_CLASSES, LLSC_MAX_LIMIT, 0), LLSC_DONE);
    granted = 0;
    for (unsigned k = 0; k < THREADS; k += 1) {
        same(llsc_load(&t[k], 8, 8, &value), LLSC_DONE);
        same(llsc_store(&t[k], 8, 8, value), LLSC_DONE);
        same(llsc_load_ex4(&t[k], 8, &value), LLSC_DONE);
        same(llsc_store_ex4(&t[k], 8, value, &failed), LLSC_DONE);
        same(failed, 0);
        same(llsc_clear_ex(&t[k]), LLSC_DONE);
    }
    same(llsc_close_all(t, THREADS, left, BYTES), LLSC_DONE);
    same(memcmp(left, bytes, BYTES), 0);
    nothing_left();
}

int main(void) {
    for (unsigned k = 0; k < BYTES; k += 1)
        bytes[k] = (uint8_t)(17 * k + 5);
    opens();
    int calls = 0;
    while (splits(calls) && calls < 100)
        calls += 1;
    same(calls >= THREADS - 1 && calls < 100, 1);
    opens_all();
    accesses();
    return ended();
}
