/* What the compiler calls where RV32I has no instruction: products, and quotients and rests of 32 bits. */

enum { SUMS = 2 * 0xffff + 1 };

/* A quarter of the square of each sum of two half words, rounded down. */
static unsigned quarters[SUMS];

static void fill_quarters(void) {
    for (unsigned sum = 1; sum < SUMS; sum += 1)
        quarters[sum] = quarters[sum - 1] + sum / 2;
}

/* The product of two half words is a quarter of the square of their sum less one of the square of their difference. */
static unsigned product_of_halves(unsigned factor, unsigned other) {
    unsigned difference = factor < other ? other - factor : factor - other;
    return quarters[factor + other] - quarters[difference];
}

static unsigned long long product(unsigned factor, unsigned other) {
    unsigned low = factor & 0xffff, high = factor >> 16, other_low = other & 0xffff, other_high = other >> 16;
    unsigned long long sum = (unsigned long long)product_of_halves(high, other_high) << 32 | product_of_halves(low, other_low);
    sum += (unsigned long long)product_of_halves(low, other_high) << 16;
    return sum + ((unsigned long long)product_of_halves(high, other_low) << 16);
}

/* The low 64 bits of a product of any numbers, and the first of all. */
__attribute__((noinline)) static unsigned long long whole_product(unsigned long long factor, unsigned long long other) {
    if (quarters[SUMS - 1] == 0)
        fill_quarters();
    return product(factor, other) + ((product(factor >> 32, other) + product(factor, other >> 32)) << 32);
}

unsigned long long __muldi3(unsigned long long factor, unsigned long long other) {
    if (quarters[SUMS - 1] != 0 && (factor >> 32 | other >> 32) == 0)
        return product(factor, other);
    return whole_product(factor, other);
}

unsigned __mulsi3(unsigned factor, unsigned other) { return __muldi3(factor, other); }

/* The quotient of two numbers, and the rest; by 0 the quotient is all ones, and the rest the number itself. */
static unsigned quotient(unsigned number, unsigned divisor, unsigned *rest) {
    unsigned over = 0;
    for (unsigned bits = 32; bits > 0; bits -= 1) {
        unsigned carry = over >> 31;
        over = over << 1 | number >> 31;
        number <<= 1;
        if (carry || over >= divisor) {
            over -= divisor;
            number |= 1;
        }
    }
    *rest = over;
    return number;
}

unsigned __udivsi3(unsigned number, unsigned divisor) {
    unsigned rest;
    return quotient(number, divisor, &rest);
}

unsigned __umodsi3(unsigned number, unsigned divisor) {
    unsigned rest;
    quotient(number, divisor, &rest);
    return rest;
}

static unsigned size_of(int number) { return number < 0 ? -(unsigned)number : (unsigned)number; }

int __divsi3(int number, int divisor) {
    unsigned size = __udivsi3(size_of(number), size_of(divisor));
    return (number ^ divisor) < 0 ? -size : size;
}

int __modsi3(int number, int divisor) {
    unsigned size = __umodsi3(size_of(number), size_of(divisor));
    return number < 0 ? -size : size;
}
