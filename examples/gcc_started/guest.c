/* Work that is done in parts, each by a thread that is started for it, but for the first, which the starter does itself. Each
   thread adds the numbers of its part to one sum, and prints what it has added. The starter waits until all are done,
   prints the sum, and leaves with 0 where no addition got lost, and with 1 otherwise or where a thread couldn't be started. */

/* The compiler is kept to ARMv5, of which it uses nothing that a guest lacks. The exclusives are newer. */
__asm__(".arch armv7-a");

enum { PARTS = 4, LENGTH = 100, NUMBERS = PARTS * LENGTH, ALL = NUMBERS * (NUMBERS + 1) / 2 };

static unsigned sum;
static volatile unsigned done; /* the parts that are added */

void begin(void); /* in start.s: where a started thread begins */

static void barrier(void) { __asm__ volatile("dmb" : : : "memory"); }

/* Starts a thread at `begin`, and gives its number, or minus 11 where this thread has no number left for one. */
static int start(unsigned argument) {
    register unsigned r0 __asm__("r0") = (unsigned)begin;
    register unsigned r1 __asm__("r1") = argument;
    register unsigned r7 __asm__("r7") = 0xF0001;
    __asm__ volatile("svc #0" : "+r"(r0) : "r"(r1), "r"(r7) : "memory");
    return (int)r0;
}

/* Adds a number to a word, which other threads do too. */
static void add(volatile unsigned *word, unsigned number) {
    unsigned value, failed;
    __asm__ volatile(
        "1: ldrex   %0, [%2]\n"
        "   add     %0, %0, %3\n"
        "   strex   %1, %0, [%2]\n" /* 0 if nobody wrote the word since */
        "   teq     %1, #0\n"
        "   bne     1b\n"
        : "=&r"(value), "=&r"(failed)
        : "r"(word), "r"(number)
        : "cc", "memory");
}

static void write(const char *text, unsigned length) {
    register unsigned r0 __asm__("r0") = 1; /* the descriptor */
    register const char *r1 __asm__("r1") = text;
    register unsigned r2 __asm__("r2") = length;
    register unsigned r7 __asm__("r7") = 4;
    __asm__ volatile("svc #0" : "+r"(r0) : "r"(r1), "r"(r2), "r"(r7) : "memory");
}

static void print(const char *text) {
    unsigned length = 0;
    while (text[length] != 0)
        length += 1;
    write(text, length);
}

static void print_number(unsigned number) {
    char digits[10];
    unsigned first = sizeof digits;
    do {
        first -= 1;
        digits[first] = '0' + number % 10;
        number /= 10;
    } while (number != 0);
    write(digits + first, sizeof digits - first);
}

static void print_line(const char *name, unsigned number) {
    print(name);
    print_number(number);
    print("\n");
}

/* Adds the numbers of a part, and counts it among those that are done. The first part is thread 0's, and each other one that of
   the thread with its number. */
int work(unsigned part, unsigned thread) {
    unsigned added = 0;
    for (unsigned number = part * LENGTH + 1; number <= (part + 1) * LENGTH; number += 1) {
        add(&sum, number);
        added += number;
    }
    print_line("added ", added);
    barrier(); /* what was done is seen before the count */
    add(&done, 1);
    return part != thread;
}

int guest(unsigned thread, unsigned threads) {
    if (threads != 1)
        return 1;
    for (unsigned part = 1; part < PARTS; part += 1)
        if (start(part) < 0)
            return 1;
    int failed = work(0, thread);
    while (done != PARTS)
        __asm__ volatile("yield");
    barrier(); /* the sum is looked at after that */
    print_line("all ", sum);
    return failed || sum != ALL;
}
