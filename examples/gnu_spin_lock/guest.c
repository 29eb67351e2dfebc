/* A spin lock, for any number of threads. Each thread adds the numbers from 1 to 100 to one sum, each of them under the
   lock, and prints what it has added. When all are done, each thread looks at the sum: it leaves with 1 where an addition
   got lost, and with 0 otherwise. */

/* The compiler is kept to ARMv5, of which it uses nothing that a guest lacks. The lock's instructions are newer. */
__asm__(".arch armv7-a");

enum { ROUNDS = 100, ADDED = ROUNDS * (ROUNDS + 1) / 2 };

static volatile unsigned lock; /* 0 where it is free, 1 where it is held */
static unsigned sum;
static volatile unsigned done; /* the threads that have added all of their numbers */

static void barrier(void) { __asm__ volatile("dmb" : : : "memory"); }

static void take_lock(void) {
    unsigned seen;
    __asm__ volatile(
        "1: ldrex   %0, [%1]\n"
        "   teq     %0, #0\n"
        "   yieldne\n"              /* somebody holds it */
        "   strexeq %0, %2, [%1]\n" /* 0 if nobody wrote the lock since */
        "   teqeq   %0, #0\n"
        "   bne     1b\n"
        : "=&r"(seen)
        : "r"(&lock), "r"(1)
        : "cc", "memory");
    barrier(); /* what follows is done under the lock */
}

static void free_lock(void) {
    barrier(); /* what was done is seen before the lock is free */
    lock = 0;
}

static void add(unsigned number) {
    take_lock();
    sum += number;
    free_lock();
}

/* Says that this thread is done, and waits until all are. */
static void wait_for_all(unsigned threads) {
    take_lock();
    done += 1;
    free_lock();
    while (done != threads)
        __asm__ volatile("yield");
    barrier(); /* the sum is looked at after that */
}

static void write(const char *text, unsigned length) {
    register unsigned r0 __asm__("r0") = 1; /* the descriptor */
    register const char *r1 __asm__("r1") = text;
    register unsigned r2 __asm__("r2") = length;
    register unsigned r7 __asm__("r7") = 4;
    __asm__ volatile("svc #0" : "+r"(r0) : "r"(r1), "r"(r2), "r"(r7) : "memory");
}

static void print(const char *text) {
    unsigned length = 0;
    while (text[length] != 0)
        length += 1;
    write(text, length);
}

static void print_number(unsigned number) {
    char digits[10];
    unsigned first = sizeof digits;
    do {
        first -= 1;
        digits[first] = '0' + number % 10;
        number /= 10;
    } while (number != 0);
    write(digits + first, sizeof digits - first);
}

int guest(unsigned thread, unsigned threads) {
    for (unsigned number = 1; number <= ROUNDS; number += 1)
        add(number);
    print("thread ");
    print_number(thread);
    print(" of ");
    print_number(threads);
    print(" added ");
    print_number(ADDED);
    print("\n");
    wait_for_all(threads);
    return sum != threads * ADDED;
}
