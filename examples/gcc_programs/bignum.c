/* Numbers of many words: the decimal digits of the factorial of 150, and powers modulo the prime 2^521 - 1 by Montgomery's
   product (Math. Comp. 44, 1985). Leaves with 1 where the power by the prime less 1 isn't 1, as Fermat has it. */

#include "guest.h"

enum { WORDS = 17, BITS = 521, FACTOR = 150, ROOM = 32, DIGITS = 280 };

/* The words of 2^521 - 1, lowest first. */
static unsigned prime[WORDS];

static unsigned low_of(unsigned long long number) { return number; }

static unsigned high_of(unsigned long long number) { return number >> 32; }

/* Sets a number of so many words to the value of one. */
static void set(unsigned *number, unsigned words, unsigned value) {
    number[0] = value;
    for (unsigned i = 1; i < words; i += 1)
        number[i] = 0;
}

/* Takes the prime from a number below twice the prime, where that isn't below the prime itself. */
static void reduce(unsigned *number) {
    unsigned less[WORDS];
    long long carry = 0;
    for (unsigned i = 0; i < WORDS; i += 1) {
        carry += (long long)number[i] - prime[i];
        less[i] = carry;
        carry >>= 32;
    }
    for (unsigned i = 0; i < WORDS && carry == 0; i += 1)
        number[i] = less[i];
}

/* The product of two numbers below the prime, divided by 2^544, modulo the prime. Its lowest word is 2^32 - 1, so the
   multiple that clears a lowest word is that word itself. */
static void multiply(unsigned *product, const unsigned *factor, const unsigned *other) {
    unsigned sum[WORDS + 2];
    set(sum, WORDS + 2, 0);
    for (unsigned i = 0; i < WORDS; i += 1) {
        unsigned long long carry = 0;
        for (unsigned k = 0; k < WORDS; k += 1) {
            carry = (unsigned long long)factor[k] * other[i] + sum[k] + high_of(carry);
            sum[k] = carry;
        }
        carry = (unsigned long long)sum[WORDS] + high_of(carry);
        sum[WORDS] = carry;
        sum[WORDS + 1] = high_of(carry);
        unsigned multiple = sum[0];
        carry = (unsigned long long)multiple * prime[0] + sum[0];
        for (unsigned k = 1; k < WORDS; k += 1) {
            carry = (unsigned long long)multiple * prime[k] + sum[k] + high_of(carry);
            sum[k - 1] = carry;
        }
        carry = (unsigned long long)sum[WORDS] + high_of(carry);
        sum[WORDS - 1] = carry;
        sum[WORDS] = sum[WORDS + 1] + high_of(carry);
    }
    for (unsigned i = 0; i < WORDS; i += 1)
        product[i] = sum[i];
    reduce(product);
}

/* The double of a number below the prime, modulo the prime. */
static void redouble(unsigned *number) {
    unsigned carry = 0;
    for (unsigned i = 0; i < WORDS; i += 1) {
        unsigned high = number[i] >> 31;
        number[i] = number[i] << 1 | carry;
        carry = high;
    }
    reduce(number);
}

/* 3 to a power, modulo the prime. */
static void power_of_3(unsigned *power, const unsigned *exponent) {
    unsigned base[WORDS], one[WORDS];
    set(base, WORDS, 3);
    set(one, WORDS, 1);
    set(power, WORDS, 1);
    for (unsigned bit = 0; bit < 32 * WORDS; bit += 1) {
        redouble(base);
        redouble(power);
    }
    for (unsigned bit = BITS; bit > 0; bit -= 1) {
        multiply(power, power, power);
        if (exponent[(bit - 1) / 32] >> (bit - 1) % 32 & 1)
            multiply(power, power, base);
    }
    multiply(power, power, one);
}

static void print_words(const unsigned *number) {
    print_hex(number[WORDS - 1], 3);
    for (unsigned i = WORDS - 1; i > 0; i -= 1)
        print_hex(number[i - 1], 8);
    print("\n");
}

/* Divides a number by 10,000, in place, and gives the rest. */
static unsigned divide(unsigned *number, unsigned words) {
    unsigned rest = 0;
    for (unsigned i = words; i > 0; i -= 1) {
        unsigned high = rest << 16 | number[i - 1] >> 16;
        unsigned low = high % 10000 << 16 | (number[i - 1] & 0xffff);
        number[i - 1] = high / 10000 << 16 | low / 10000;
        rest = low % 10000;
    }
    return rest;
}

static void print_factorial(unsigned factor) {
    unsigned number[ROOM], first = DIGITS;
    char digits[DIGITS];
    set(number, ROOM, 1);
    for (unsigned i = 2; i <= factor; i += 1) {
        unsigned long long carry = 0;
        for (unsigned k = 0; k < ROOM; k += 1) {
            carry = (unsigned long long)number[k] * i + high_of(carry);
            number[k] = low_of(carry);
        }
    }
    while (first > 0) {
        unsigned rest = divide(number, ROOM);
        for (unsigned i = 0; i < 4; i += 1, rest /= 10)
            digits[--first] = '0' + rest % 10;
    }
    while (digits[first] == '0')
        first += 1;
    write(digits + first, DIGITS - first);
    print("\n");
}

int guest(void) {
    unsigned exponent[WORDS], power[WORDS], differing;
    for (unsigned i = 0; i < WORDS; i += 1)
        prime[i] = i < WORDS - 1 ? 0xffffffff : (1 << BITS % 32) - 1;
    print_factorial(FACTOR);
    set(exponent, WORDS, 65537);
    power_of_3(power, exponent);
    print_words(power);
    for (unsigned i = 0; i < WORDS; i += 1)
        exponent[i] = prime[i];
    exponent[0] -= 1;
    power_of_3(power, exponent);
    print_words(power);
    differing = power[0] ^ 1;
    for (unsigned i = 1; i < WORDS; i += 1)
        differing |= power[i];
    return differing != 0;
}
