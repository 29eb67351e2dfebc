/* A spin lock, for any number of threads. Each thread adds the numbers from 1 to 500 to one sum, each of them under the
   lock, and prints what it has added. When all are done, each thread looks at the sum: it leaves with 1 where an addition
   got lost, and with 0 otherwise. */

enum { ROUNDS = 500, ADDED = ROUNDS * (ROUNDS + 1) / 2 };

static volatile unsigned lock; /* 0 where it is free, 1 where it is held */
static unsigned sum;
static volatile unsigned done; /* the threads that have added all of their numbers */

/* A call of the system, which gives its answer. */
static int call(unsigned number, unsigned first, const void *second, unsigned third) {
    register unsigned a0 __asm__("a0") = first;
    register const void *a1 __asm__("a1") = second;
    register unsigned a2 __asm__("a2") = third;
    register unsigned a7 __asm__("a7") = number;
    __asm__ volatile("ecall" : "+r"(a0) : "r"(a1), "r"(a2), "r"(a7) : "memory");
    return (int)a0;
}

/* Lets other threads run. */
static void yield(void) { call(124, 0, 0, 0); }

/* Whether the lock was free, and is held by this thread now. */
static int takes_lock(void) {
    unsigned seen;
    __asm__ volatile(
        "1: lr.w.aq %0, (%1)\n"     /* what follows is done under the lock */
        "   bnez    %0, 2f\n"       /* somebody holds it */
        "   sc.w    %0, %2, (%1)\n" /* 0 if nobody wrote the lock since */
        "   bnez    %0, 1b\n"
        "2:\n"
        : "=&r"(seen)
        : "r"(&lock), "r"(1)
        : "memory");
    return seen == 0;
}

static void take_lock(void) {
    while (!takes_lock())
        yield();
}

static void free_lock(void) {
    __asm__ volatile("fence rw, w" : : : "memory"); /* what was done is seen before the lock is free */
    lock = 0;
}

static void add(unsigned number) {
    take_lock();
    sum += number;
    free_lock();
}

/* Says that this thread is done, and waits until all are. */
static void wait_for_all(unsigned threads) {
    take_lock();
    done += 1;
    free_lock();
    while (done != threads)
        yield();
    __asm__ volatile("fence r, rw" : : : "memory"); /* the sum is looked at after that */
}

static void print(const char *text) {
    unsigned length = 0;
    while (text[length] != 0)
        length += 1;
    call(64, 1, text, length);
}

static const unsigned UNITS[] = {1000000, 100000, 10000, 1000, 100, 10, 1};

/* A number of at most seven digits, each of which is counted. */
static void print_number(unsigned number) {
    unsigned place = 0;
    while (UNITS[place] > number && UNITS[place] > 1)
        place += 1;
    for (; place < sizeof UNITS / sizeof *UNITS; place += 1) {
        char digit[2] = {'0', 0};
        for (; number >= UNITS[place]; number -= UNITS[place])
            digit[0] += 1;
        print(digit);
    }
}

int guest(unsigned thread, unsigned threads) {
    unsigned all = 0;
    for (unsigned number = 1; number <= ROUNDS; number += 1)
        add(number);
    print("thread ");
    print_number(thread);
    print(" of ");
    print_number(threads);
    print(" added ");
    print_number(ADDED);
    print("\n");
    wait_for_all(threads);
    for (unsigned count = 0; count < threads; count += 1)
        all += ADDED;
    return sum != all;
}
