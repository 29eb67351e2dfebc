/* Sorts 10,000 numbers that look like chance by quicksort (Hoare, 1961), and prints the least, the middle one, the greatest,
   and a fold of all in their order. Leaves with 1 where they aren't in order or aren't those that there were. */

#include "guest.h"

enum { COUNT = 10000, FEW = 12 };

static unsigned numbers[COUNT];

static void insert_each(unsigned *first, unsigned *last) {
    for (unsigned *next = first + 1; next <= last; next += 1) {
        unsigned number = *next, *hole = next;
        for (; hole > first && hole[-1] > number; hole -= 1)
            *hole = hole[-1];
        *hole = number;
    }
}

/* Parts the numbers from `first` to `last` in two: none of the one part, which ends with the given one, is greater than any
   of the other. */
static unsigned *part(unsigned *first, unsigned *last) {
    unsigned pivot = first[(last - first) / 2];
    for (;; first += 1, last -= 1) {
        while (*first < pivot)
            first += 1;
        while (*last > pivot)
            last -= 1;
        if (first >= last)
            return last;
        unsigned number = *first;
        *first = *last;
        *last = number;
    }
}

/* Sorts the numbers from `first` to `last`. The greater part goes on in the loop, so that the stack stays small. */
static void sort(unsigned *first, unsigned *last) {
    while (last - first >= FEW) {
        unsigned *middle = part(first, last);
        if (middle - first < last - middle) {
            sort(first, middle);
            first = middle + 1;
        } else {
            sort(middle + 1, last);
            last = middle;
        }
    }
    insert_each(first, last);
}

static void print_line(const char *name, unsigned number) {
    print(name);
    print_number(number);
    print("\n");
}

int guest(void) {
    unsigned drawn = 1, sum = 0, fold = 0, unordered = 0;
    for (unsigned i = 0; i < COUNT; i += 1) {
        drawn = next_drawn(drawn);
        numbers[i] = drawn;
        sum += drawn;
    }
    sort(numbers, numbers + COUNT - 1);
    for (unsigned i = 0; i < COUNT; i += 1) {
        unordered |= i > 0 && numbers[i - 1] > numbers[i];
        fold = fold * 31 + numbers[i];
        sum -= numbers[i];
    }
    print_line("least ", numbers[0]);
    print_line("middle ", numbers[COUNT / 2]);
    print_line("greatest ", numbers[COUNT - 1]);
    print_line("fold ", fold);
    return unordered || sum != 0;
}
