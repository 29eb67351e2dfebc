/* A thread that is stopped in the middle of a store, by a signal whose handler waits: its class is busy until it goes on, and nobody
   waits but who stores there plainly. */
#include "trial.h"

#include <signal.h>

enum { BYTES = LLSC_MIN_BYTES, AT = 0x100 };

static uint8_t bytes[BYTES], left[BYTES];
static llsc_thread t[2];
static int stopped, goes_on, over; /* flags that two threads share */

static int is_set(int *flag) { return __atomic_load_n(flag, __ATOMIC_SEQ_CST); }

static void set(int *flag, int value) { __atomic_store_n(flag, value, __ATOMIC_SEQ_CST); }

static void stop(int number) {
    (void)number;
    set(&stopped, 1);
    while (!is_set(&goes_on))
        __builtin_ia32_pause();
    set(&stopped, 0);
}

static void *store(void *none) {
    for (uint32_t k = 1; !is_set(&over); k += 1)
        same(llsc_store4(&t[1], AT, k), LLSC_DONE);
    return none;
}

/* What others find while a store of the row is under way; `last` is what stands behind its place. */
static void look(uint32_t last) {
    uint64_t value, again;
    uint32_t failed = 9;
    same(llsc_load8(&t[0], AT, &value), LLSC_DONE);
    same(value >> 32, last);
    for (unsigned k = 0; k < 1000; k += 1) {
        same(llsc_store_now4(&t[0], AT + 4, 77), LLSC_BUSY);
        same(llsc_store_now(&t[0], AT + 8 * LLSC_MAX_CLASSES, 8, 77), LLSC_BUSY);
    }
    same(llsc_load_ex8(&t[0], AT, &again), LLSC_DONE);
    same(again, value);
    same(llsc_store_ex8(&t[0], AT, 77, &failed), LLSC_DONE);
    same(failed, 1);
    same(llsc_load8(&t[0], AT, &again), LLSC_DONE);
    same(again, value);

    same(llsc_store8(&t[0], AT + 8, last), LLSC_DONE); /* in another class */
    same(llsc_load_ex8(&t[0], AT + 16, &again), LLSC_DONE);
    same(llsc_store_ex8(&t[0], AT + 16, last, &failed), LLSC_DONE);
    same(failed, 0);
}

int main(void) {
    struct sigaction action;
    pthread_t host;
    unsigned met = 0;
    uint32_t last = 0;
    memset(&action, 0, sizeof action);
    action.sa_handler = stop;
    same(sigaction(SIGUSR1, &action, NULL), 0);
    same(llsc_open_all(t, 2, bytes, BYTES, LLSC_MAX_CLASSES, LLSC_MAX_LIMIT, 0), LLSC_DONE);
    if (pthread_create(&host, NULL, store, NULL) != 0)
        return 2;
    for (unsigned k = 1; k <= 10000 && met < 5; k += 1) {
        set(&goes_on, 0);
        pthread_kill(host, SIGUSR1);
        while (!is_set(&stopped))
            sched_yield();
        uint32_t answer = llsc_store_now4(&t[0], AT + 4, k);
        same(answer == LLSC_DONE || answer == LLSC_BUSY, 1);
        if (answer == LLSC_DONE) {
            last = k;
        } else {
            met += 1;
            look(last);
        }
        set(&goes_on, 1);
        while (is_set(&stopped))
            sched_yield();
    }
    set(&over, 1);
    pthread_join(host, NULL);
    same(met, 5);
    same(llsc_close_all(t, 2, left, BYTES), LLSC_DONE);
    same(value_at(left, AT + 4, 4), last);
    return ended();
}
