/* What the programs share: output, and bytes to work on. */

static void write(const void *bytes, unsigned length) {
#ifdef __riscv
    register unsigned a0 __asm__("a0") = 1; /* the descriptor */
    register const void *a1 __asm__("a1") = bytes;
    register unsigned a2 __asm__("a2") = length;
    register unsigned a7 __asm__("a7") = 64;
    __asm__ volatile("ecall" : "+r"(a0) : "r"(a1), "r"(a2), "r"(a7) : "memory");
#else
    register unsigned r0 __asm__("r0") = 1; /* the descriptor */
    register const void *r1 __asm__("r1") = bytes;
    register unsigned r2 __asm__("r2") = length;
    register unsigned r7 __asm__("r7") = 4;
    __asm__ volatile("svc #0" : "+r"(r0) : "r"(r1), "r"(r2), "r"(r7) : "memory");
#endif
}

static void print(const char *text) {
    unsigned length = 0;
    while (text[length] != 0)
        length += 1;
    write(text, length);
}

/* A number in decimal digits, without zeros before it. */
static inline void print_number(unsigned number) {
    char digits[10];
    unsigned first = sizeof digits;
    do {
        first -= 1;
        digits[first] = '0' + number % 10;
        number /= 10;
    } while (number != 0);
    write(digits + first, sizeof digits - first);
}

/* A number in hexadecimal digits of lower case, `count` of them, 8 at most. */
static inline void print_hex(unsigned number, unsigned count) {
    char digits[8];
    for (unsigned digit = count; digit > 0; digit -= 1) {
        digits[digit - 1] = "0123456789abcdef"[number & 15];
        number >>= 4;
    }
    write(digits, count);
}

/* The next number of a row that looks like chance (Marsaglia, Xorshift RNGs, 2003); it isn't 0 where the one before isn't. */
static inline unsigned next_drawn(unsigned drawn) {
    drawn ^= drawn << 13;
    drawn ^= drawn >> 17;
    return drawn ^ drawn << 5;
}

/* Fills memory with bytes that look like chance. */
static inline void draw_bytes(unsigned char *bytes, unsigned length) {
    unsigned drawn = 1;
    for (unsigned place = 0; place < length; place += 1) {
        drawn = next_drawn(drawn);
        bytes[place] = drawn >> 24;
    }
}
