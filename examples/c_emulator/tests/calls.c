/* Every call of the library, on its way and on each refusal. */
#include "trial.h"

enum { BYTES = LLSC_MIN_BYTES };

static uint8_t bytes[BYTES]; /* the memory as it is to be */
static uint8_t left[BYTES];  /* as it is left */
static llsc_thread t[LLSC_MAX_THREADS + 1];

static const uint32_t widths[4] = {1, 2, 4, 8};
static const uint64_t far[] = {BYTES, BYTES + 8, UINT64_C(0x100000000), UINT64_C(0x100000008), UINT64_C(0x8000000000000000),
                               UINT64_MAX - 7, UINT64_MAX};

static void fill(void) {
    for (unsigned k = 0; k < BYTES; k += 1)
        bytes[k] = (uint8_t)(31 * k + 7);
}

static void open_with(size_t threads, uint64_t classes, uint64_t limit, uint64_t granule) {
    fill();
    same(llsc_open_all(t, threads, bytes, BYTES, classes, limit, granule), LLSC_DONE);
}

static void open_plain(size_t threads) { open_with(threads, LLSC_MAX_CLASSES, LLSC_MAX_LIMIT, 0); }

/* Closes, and compares with what memory is to be. */
static void close_same(size_t threads) {
    memset(left, 0, BYTES);
    same(llsc_close_all(t, threads, left, BYTES), LLSC_DONE);
    same(memcmp(left, bytes, BYTES), 0);
    for (size_t k = 0; k < threads; k += 1)
        same(is_none(&t[k]), 1);
}

/* The calls of each width, by the width. */
static uint32_t load_of(llsc_thread *at, uint64_t addr, uint32_t width, uint64_t *value) {
    return width == 1 ? llsc_load1(at, addr, value)
           : width == 2 ? llsc_load2(at, addr, value)
           : width == 4 ? llsc_load4(at, addr, value)
                        : llsc_load8(at, addr, value);
}

static uint32_t store_now_of(llsc_thread *at, uint64_t addr, uint32_t width, uint64_t value) {
    return width == 1 ? llsc_store_now1(at, addr, value)
           : width == 2 ? llsc_store_now2(at, addr, value)
           : width == 4 ? llsc_store_now4(at, addr, value)
                        : llsc_store_now8(at, addr, value);
}

static uint32_t store_of(llsc_thread *at, uint64_t addr, uint32_t width, uint64_t value) {
    return width == 1 ? llsc_store1(at, addr, value)
           : width == 2 ? llsc_store2(at, addr, value)
           : width == 4 ? llsc_store4(at, addr, value)
                        : llsc_store8(at, addr, value);
}

static uint32_t load_ex_of(llsc_thread *at, uint64_t addr, uint32_t width, uint64_t *value) {
    return width == 1 ? llsc_load_ex1(at, addr, value)
           : width == 2 ? llsc_load_ex2(at, addr, value)
           : width == 4 ? llsc_load_ex4(at, addr, value)
                        : llsc_load_ex8(at, addr, value);
}

static uint32_t store_ex_of(llsc_thread *at, uint64_t addr, uint32_t width, uint64_t value, uint32_t *failed) {
    return width == 1 ? llsc_store_ex1(at, addr, value, failed)
           : width == 2 ? llsc_store_ex2(at, addr, value, failed)
           : width == 4 ? llsc_store_ex4(at, addr, value, failed)
                        : llsc_store_ex8(at, addr, value, failed);
}

/* Each access of this place, by all of its calls, has this answer, and changes neither value nor flag. A value is to be given that
   is too wide, if that is the answer. */
static void all_answer(llsc_thread *at, uint64_t addr, uint32_t width, uint64_t value, uint32_t answer) {
    uint64_t found = 77;
    uint32_t failed = 55;
    int fixed = width == 1 || width == 2 || width == 4 || width == 8;
    if (answer != LLSC_VALUE) {
        same(llsc_load(at, addr, width, &found), answer);
        same((llsc_load)(at, addr, width, &found), answer);
        same(llsc_load_ex(at, addr, width, &found), answer);
        same((llsc_load_ex)(at, addr, width, &found), answer);
    }
    same(llsc_store_now(at, addr, width, value), answer);
    same(llsc_store(at, addr, width, value), answer);
    same(llsc_store_ex(at, addr, width, value, &failed), answer);
    same((llsc_store_ex)(at, addr, width, value, &failed), answer);
    if (fixed) {
        if (answer != LLSC_VALUE) {
            same(load_of(at, addr, width, &found), answer);
            same(load_ex_of(at, addr, width, &found), answer);
        }
        same(store_now_of(at, addr, width, value), answer);
        same(store_of(at, addr, width, value), answer);
        same(store_ex_of(at, addr, width, value, &failed), answer);
    }
    same(found, 77);
    same(failed, 55);
}

/* Every call once, each on its way. */
static void every_call(void) {
    uint64_t value;
    uint32_t failed;
    fill();
    same(llsc_open(&t[0], bytes, BYTES, 2, LLSC_MAX_CLASSES, LLSC_MAX_LIMIT, 0), LLSC_DONE);
    same(llsc_split(&t[0], &t[1]), LLSC_DONE);
    for (unsigned k = 0; k < 4; k += 1) {
        uint32_t width = widths[k];
        uint64_t addr = 0x100 * width;
        same((llsc_load)(&t[0], addr, width, &value), LLSC_DONE);
        same(value, value_at(bytes, addr, width));
        same(load_of(&t[1], addr + width, width, &value), LLSC_DONE);
        same(value, value_at(bytes, addr + width, width));

        same(llsc_store_now(&t[0], addr, width, most(width)), LLSC_DONE);
        same(load_of(&t[1], addr, width, &value), LLSC_DONE);
        same(value, most(width));
        same(store_now_of(&t[0], addr, width, 0x81), LLSC_DONE);
        same(load_of(&t[1], addr, width, &value), LLSC_DONE);
        same(value, 0x81);
        same(llsc_store(&t[0], addr, width, most(width) - 1), LLSC_DONE);
        same(load_of(&t[1], addr, width, &value), LLSC_DONE);
        same(value, most(width) - 1);
        same(store_of(&t[0], addr, width, 0x42), LLSC_DONE);
        same(load_of(&t[1], addr, width, &value), LLSC_DONE);
        same(value, 0x42);

        failed = 9;
        same((llsc_load_ex)(&t[0], addr, width, &value), LLSC_DONE);
        same(value, 0x42);
        same((llsc_store_ex)(&t[0], addr, width, most(width) - 2, &failed), LLSC_DONE);
        same(failed, 0);
        failed = 9;
        same(llsc_load_ex(&t[0], addr, width, &value), LLSC_DONE);
        same(value, most(width) - 2);
        same(llsc_store_ex(&t[0], addr, width, most(width), &failed), LLSC_DONE);
        same(failed, 0);
        failed = 9;
        same(load_ex_of(&t[1], addr, width, &value), LLSC_DONE);
        same(value, most(width));
        same(store_ex_of(&t[1], addr, width, 0x24, &failed), LLSC_DONE);
        same(failed, 0);
        same(store_ex_of(&t[1], addr, width, 0x25, &failed), LLSC_DONE);
        same(failed, 1);
        same(llsc_load(&t[0], addr, width, &value), LLSC_DONE);
        same(value, 0x24);
        put_at(bytes, addr, width, 0x24);
    }
    same(llsc_clear_ex(&t[0]), LLSC_DONE);
    same(llsc_join(&t[0], &t[1]), LLSC_DONE);
    same(is_none(&t[1]), 1);
    same(llsc_close(&t[0], left, BYTES), LLSC_DONE);
    same(memcmp(left, bytes, BYTES), 0);
    same(is_none(&t[0]), 1);

    same(llsc_open(&t[0], bytes, BYTES, 1, 1, 1, LLSC_MAX_GRANULE), LLSC_DONE);
    same(llsc_end(&t[0]), LLSC_DONE);
    same(is_none(&t[0]), 1);
    open_plain(LLSC_MAX_THREADS); /* ended in any order, some of them joined, some never split */
    same(llsc_join(&t[3], &t[4]), LLSC_DONE);
    for (unsigned k = 0; k < LLSC_MAX_THREADS; k += 1)
        same(llsc_end(&t[(7 * k) % LLSC_MAX_THREADS]), (7 * k) % LLSC_MAX_THREADS == 4 ? LLSC_NO_THREAD : LLSC_DONE);
    same(llsc_open(&t[0], bytes, BYTES, 5, 1, 1, 0), LLSC_DONE);
    same(llsc_end(&t[0]), LLSC_DONE);
}

static void no_thread(void) {
    fill();
    memset(left, 3, BYTES);
    for (unsigned k = 0; k < 4; k += 1)
        all_answer(&t[0], BYTES, widths[k], UINT64_MAX, LLSC_NO_THREAD);
    all_answer(&t[0], 1, 3, 0, LLSC_NO_THREAD);
    same(llsc_clear_ex(&t[0]), LLSC_NO_THREAD);
    same(llsc_split(&t[0], &t[1]), LLSC_NO_THREAD);
    same(llsc_join(&t[0], &t[1]), LLSC_NO_THREAD);
    same(llsc_close(&t[0], left, 1), LLSC_NO_THREAD);
    same(llsc_close_all(t, 0, left, BYTES), LLSC_NO_THREAD);
    same(llsc_close_all(t, 3, left, BYTES), LLSC_NO_THREAD);
    same(llsc_end(&t[0]), LLSC_NO_THREAD);
    same(left[0] == 3 && left[BYTES - 1] == 3, 1);
    same(is_none(&t[0]) && is_none(&t[1]), 1);
    open_plain(2);
    same(llsc_join(&t[0], &t[2]), LLSC_NO_THREAD);
    same(llsc_join(&t[2], &t[0]), LLSC_NO_THREAD);
    close_same(2);
    same(llsc_close(&t[0], left, BYTES), LLSC_NO_THREAD); /* closed, and taken in */
    same(llsc_end(&t[1]), LLSC_NO_THREAD);
}

/* Of an access the first fault counts: of the threads, the width, the end, the alignment, the value. */
static void places(void) {
    static const uint32_t wrong[] = {0, 3, 5, 6, 7, 9, 16, 32, 255, 256, 257, 258, 260, 264, UINT32_MAX};
    uint64_t value;
    fill();
    same(llsc_open(&t[0], bytes, BYTES, 2, 4096, LLSC_MAX_LIMIT, 0), LLSC_DONE);
    for (unsigned k = 0; k < 4; k += 1)
        all_answer(&t[0], BYTES, widths[k], UINT64_MAX, LLSC_SEVERAL);
    all_answer(&t[0], 1, 3, 0, LLSC_SEVERAL);
    same(llsc_clear_ex(&t[0]), LLSC_SEVERAL);
    same(llsc_split(&t[0], &t[1]), LLSC_DONE);
    for (unsigned k = 0; k < sizeof wrong / sizeof *wrong; k += 1) {
        all_answer(&t[0], 0, wrong[k], 0, LLSC_WIDTH);
        all_answer(&t[0], BYTES, wrong[k], UINT64_MAX, LLSC_WIDTH);
    }
    for (unsigned k = 0; k < 4; k += 1) {
        uint32_t width = widths[k];
        for (unsigned j = 0; j < sizeof far / sizeof *far; j += 1)
            all_answer(&t[0], far[j], width, 0, LLSC_OUTSIDE);
        for (uint32_t over = 1; over < width; over += 1) {
            all_answer(&t[0], BYTES - over, width, UINT64_MAX, LLSC_OUTSIDE);
            all_answer(&t[0], 8 + over, width, UINT64_MAX, LLSC_ALIGNMENT);
            all_answer(&t[0], 8 + over, width, 0, LLSC_ALIGNMENT);
            all_answer(&t[0], BYTES - width - over, width, 0, LLSC_ALIGNMENT);
        }
        if (width < 8) {
            all_answer(&t[0], 16, width, most(width) + 1, LLSC_VALUE);
            all_answer(&t[0], BYTES - width, width, UINT64_MAX, LLSC_VALUE);
        }
        same(llsc_load(&t[0], BYTES - width, width, &value), LLSC_DONE);
        same(value, value_at(bytes, BYTES - width, width));
        same(llsc_store(&t[1], BYTES - width, width, most(width)), LLSC_DONE);
        put_at(bytes, BYTES - width, width, most(width));
    }
    close_same(2);
}

/* What may be opened, and which fault counts where there are several. */
static void sizes(void) {
    static uint8_t large[LLSC_MAX_BYTES + LLSC_STEP_BYTES];
    static const size_t wrong[] = {0, 1, LLSC_STEP_BYTES, BYTES - LLSC_STEP_BYTES, BYTES - 1, BYTES + 1, BYTES + 2048,
                                   LLSC_MAX_BYTES - 1, LLSC_MAX_BYTES + 1, LLSC_MAX_BYTES + LLSC_STEP_BYTES};
    uint64_t value;
    for (unsigned k = 0; k < sizeof wrong / sizeof *wrong; k += 1)
        same(llsc_open(&t[0], large, wrong[k], 1, 1, 1, 0), LLSC_SIZE);
    same(llsc_open(&t[0], large, BYTES, 0, 1, 1, 0), LLSC_SIZE);
    same(llsc_open(&t[0], large, BYTES, 17, 1, 1, 0), LLSC_SIZE);
    same(llsc_open(&t[0], large, BYTES, UINT64_C(0x100000001), 1, 1, 0), LLSC_SIZE);
    same(llsc_open(&t[0], large, BYTES, 1, 0, 1, 0), LLSC_SIZE);
    same(llsc_open(&t[0], large, BYTES, 1, 3, 1, 0), LLSC_SIZE);
    same(llsc_open(&t[0], large, BYTES, 1, 4095, 1, 0), LLSC_SIZE);
    same(llsc_open(&t[0], large, BYTES, 1, 8192, 1, 0), LLSC_SIZE);
    same(llsc_open(&t[0], large, BYTES, 1, UINT64_C(0x100000001), 1, 0), LLSC_SIZE);
    same(llsc_open(&t[0], large, BYTES, 1, 1, 0, 0), LLSC_SIZE);
    same(llsc_open(&t[0], large, BYTES, 1, 1, LLSC_MAX_LIMIT + 1, 0), LLSC_SIZE);
    same(llsc_open(&t[0], large, BYTES, 1, 1, UINT64_MAX, 0), LLSC_SIZE);
    same(llsc_open(&t[0], large, BYTES, 17, 1, 1, 9), LLSC_SIZE);
    same(llsc_open(&t[0], large, BYTES, 1, 1, 1, 9), LLSC_GRANULE);
    same(llsc_open(&t[0], large, BYTES, 1, 1, 1, UINT64_C(0x100000000)), LLSC_GRANULE);
    same(llsc_open_all(t, 0, large, BYTES, 1, 1, 0), LLSC_SIZE);
    same(llsc_open_all(t, 17, large, BYTES, 1, 1, 0), LLSC_SIZE);
    same(llsc_open_all(t, 2, large, BYTES, 1, 1, 9), LLSC_GRANULE);
    same(is_none(&t[0]), 1);
    for (uint64_t classes = 1; classes <= LLSC_MAX_CLASSES; classes *= 2)
        for (uint64_t granule = 0; granule <= LLSC_MAX_GRANULE; granule += 4) {
            open_with(3, classes, 1, granule);
            same(llsc_store(&t[1], 0x1234, 4, 5), LLSC_DONE);
            put_at(bytes, 0x1234, 4, 5);
            close_same(3);
        }

    open_plain(1);
    same(llsc_open(&t[0], bytes, BYTES, 17, 1, 1, 9), LLSC_SIZE);
    same(llsc_open(&t[0], bytes, BYTES, 1, 1, 1, 9), LLSC_GRANULE);
    same(llsc_open(&t[0], bytes, BYTES, 1, 1, 1, 0), LLSC_THREAD_HERE);
    same(llsc_load(&t[0], 8, 4, &value), LLSC_DONE);
    same(value, value_at(bytes, 8, 4));
    close_same(1);

    open_plain(4); /* what was opened in part is undone, and what was there stays */
    t[5] = t[3];
    memset(&t[3], 0, sizeof t[3]);
    same(llsc_open_all(&t[3], 5, bytes, BYTES, 1, 1, 0), LLSC_THREAD_HERE);
    same(is_none(&t[3]) && is_none(&t[4]) && is_none(&t[6]) && is_none(&t[7]), 1);
    t[3] = t[5];
    memset(&t[5], 0, sizeof t[5]);
    close_same(4);

    same(llsc_open_all(t, LLSC_MAX_THREADS, large, LLSC_MAX_BYTES, LLSC_MAX_CLASSES, LLSC_MAX_LIMIT, LLSC_MAX_GRANULE), LLSC_DONE);
    same(llsc_store8(&t[15], LLSC_MAX_BYTES - 8, UINT64_MAX), LLSC_DONE);
    same(llsc_load1(&t[0], LLSC_MAX_BYTES - 1, &value), LLSC_DONE);
    same(value, 255);
    all_answer(&t[7], LLSC_MAX_BYTES, 1, 0, LLSC_OUTSIDE);
    same(llsc_close_all(t, LLSC_MAX_THREADS, large, LLSC_MAX_BYTES), LLSC_DONE);
    for (size_t k = 0; k < LLSC_MAX_BYTES; k += 1)
        if (large[k] != (k < LLSC_MAX_BYTES - 8 ? 0 : 255))
            same(k, LLSC_MAX_BYTES);
}

/* Threads that are split, joined and closed, and which fault counts. */
static void parts(void) {
    uint64_t value;
    fill();
    memset(left, 3, BYTES);
    same(llsc_open(&t[0], bytes, BYTES, 4, 4096, LLSC_MAX_LIMIT, 0), LLSC_DONE);
    same(llsc_close(&t[0], left, BYTES - 1), LLSC_LENGTH); /* all threads, though they were never split */
    same(llsc_split(&t[0], &t[3]), LLSC_DONE);
    same(llsc_split(&t[0], &t[3]), LLSC_THREAD_HERE);
    same(llsc_split(&t[5], &t[3]), LLSC_THREAD_HERE); /* though there is none to be split */
    same(llsc_split(&t[3], &t[0]), LLSC_THREAD_HERE); /* though there is one alone */
    same(llsc_split(&t[0], &t[2]), LLSC_DONE);
    same(llsc_split(&t[0], &t[1]), LLSC_DONE);
    for (unsigned k = 0; k < 4; k += 1)
        same(llsc_split(&t[k], &t[5]), LLSC_ONE);
    same(is_none(&t[5]), 1);

    same(llsc_join(&t[0], &t[2]), LLSC_APART);
    same(llsc_join(&t[1], &t[0]), LLSC_APART);
    same(llsc_join(&t[3], &t[0]), LLSC_APART);
    same(llsc_close_all(t, 4, left, BYTES - 1), LLSC_LENGTH); /* all are in t[0] now */
    same(is_none(&t[1]) && is_none(&t[2]) && is_none(&t[3]), 1);
    same(llsc_load(&t[0], 0, 1, &value), LLSC_SEVERAL);
    same(llsc_split(&t[0], &t[3]), LLSC_USED);
    same(is_none(&t[3]), 1);
    same(llsc_close(&t[0], left, BYTES + 1), LLSC_LENGTH);
    same(llsc_close(&t[0], left, 0), LLSC_LENGTH);
    same(left[0] == 3 && left[BYTES - 1] == 3, 1);
    close_same(4);

    open_plain(4);
    memset(left, 3, BYTES);
    same(llsc_store8(&t[2], 64, 1), LLSC_DONE);
    put_at(bytes, 64, 8, 1);
    for (unsigned k = 0; k < 4; k += 1)
        same(llsc_close(&t[k], left, 1), LLSC_NOT_ALL);
    same(llsc_join(&t[2], &t[3]), LLSC_DONE);
    same(llsc_join(&t[1], &t[2]), LLSC_DONE);
    same(llsc_close(&t[1], left, BYTES), LLSC_NOT_ALL);
    same(llsc_split(&t[1], &t[2]), LLSC_USED);
    same(llsc_join(&t[1], &t[0]), LLSC_APART);
    same(llsc_load8(&t[0], 64, &value), LLSC_DONE);
    same(value, 1);
    same(left[0] == 3 && left[BYTES - 1] == 3, 1);
    close_same(4); /* as the joined ones come next behind t[0] */

    open_plain(3);
    same(llsc_end(&t[1]), LLSC_DONE);
    same(llsc_close_all(t, 3, left, BYTES), LLSC_APART);
    same(llsc_end(&t[2]), LLSC_DONE);
    same(llsc_load4(&t[0], 64, &value), LLSC_DONE); /* memory is there for who is left */
    same(value, value_at(bytes, 64, 4));
    same(llsc_close_all(t, 3, left, BYTES), LLSC_NOT_ALL);
    same(llsc_end(&t[0]), LLSC_DONE);
}

/* Whether the store-exclusive of a thread fails. It leaves the word of eight bytes as it is. */
static uint32_t fails(unsigned thread, uint64_t addr) {
    uint64_t value;
    uint32_t failed = 9;
    same(llsc_load8(&t[thread], addr, &value), LLSC_DONE);
    same(llsc_store_ex8(&t[thread], addr, value, &failed), LLSC_DONE);
    return failed;
}

static void link_at(unsigned thread, uint64_t addr) {
    uint64_t value;
    same(llsc_load_ex8(&t[thread], addr, &value), LLSC_DONE);
    same(value, value_at(bytes, addr, 8));
}

/* A store of a byte that is there already. */
static void touch(unsigned thread, uint64_t addr) { same(llsc_store1(&t[thread], addr, bytes[addr]), LLSC_DONE); }

static void exclusives(void) {
    uint64_t value;
    uint32_t failed;
    open_plain(3);
    same(fails(0, 0x100), 1); /* without a reservation */
    link_at(0, 0x100);
    same(fails(0, 0x100), 0);
    same(fails(0, 0x100), 1);

    link_at(0, 0x100); /* a word that is changed and changed back */
    same(llsc_store8(&t[1], 0x100, 1), LLSC_DONE);
    same(llsc_store8(&t[2], 0x100, value_at(bytes, 0x100, 8)), LLSC_DONE);
    same(fails(0, 0x100), 1);
    link_at(0, 0x100); /* one that is stored as it was, in whichever byte */
    touch(1, 0x107);
    same(fails(0, 0x100), 1);
    link_at(0, 0x100); /* by a store-exclusive */
    link_at(1, 0x100);
    same(fails(1, 0x100), 0);
    same(fails(0, 0x100), 1);
    link_at(0, 0x100); /* by the thread itself */
    touch(0, 0x100);
    same(fails(0, 0x100), 1);

    link_at(0, 0x100); /* what ends no reservation: others' loads, exclusive ones, failures and CLREX; stores to other rows */
    link_at(1, 0x100);
    same(fails(2, 0x100), 1);
    same(llsc_clear_ex(&t[1]), LLSC_DONE);
    same(llsc_load8(&t[1], 0x100, &value), LLSC_DONE);
    touch(1, 0x0FF);
    touch(2, 0x108);
    same(llsc_load8(&t[0], 0x200, &value), LLSC_DONE);
    touch(0, 0x200);
    same(fails(0, 0x100), 0);
    link_at(0, 0x100); /* what does: CLREX, another load-exclusive, a store-exclusive to another row, failed as it is */
    same(llsc_clear_ex(&t[0]), LLSC_DONE);
    same(fails(0, 0x100), 1);
    link_at(0, 0x100);
    link_at(0, 0x200);
    same(fails(0, 0x100), 1);
    link_at(0, 0x100);
    same(fails(0, 0x200), 1);
    same(fails(0, 0x100), 1);
    link_at(0, 0x300); /* to one that nobody has stored to either, of another class and of the same */
    same(fails(0, 0x308), 1);
    link_at(0, 0x300);
    same(fails(0, 0x300 + 8 * 4096), 1);
    link_at(0, 0x100); /* a store to another row of the class, 4096 rows away */
    touch(1, 0x100 + 8 * 4096);
    same(fails(0, 0x100), 1);
    link_at(0, 0x100);
    touch(0, 0x100 + 8 * 4096);
    same(fails(0, 0x100), 1);
    link_at(0, 0x100); /* two threads: the first that stores gets through */
    link_at(1, 0x100);
    same(fails(0, 0x100), 0);
    same(fails(1, 0x100), 1);

    for (unsigned j = 0; j < 4; j += 1) /* any widths and places of a row */
        for (unsigned k = 0; k < 4; k += 1) {
            same(llsc_load_ex(&t[0], 0x108 - widths[j], widths[j], &value), LLSC_DONE);
            same(value, value_at(bytes, 0x108 - widths[j], widths[j]));
            same(llsc_store_ex(&t[0], 0x100, widths[k], 1 + k, &failed), LLSC_DONE);
            same(failed, 0);
            put_at(bytes, 0x100, widths[k], 1 + k);
        }
    link_at(0, 0x100); /* what is refused ends none */
    all_answer(&t[0], 0x100, 3, 0, LLSC_WIDTH);
    all_answer(&t[0], 0x104, 8, 0, LLSC_ALIGNMENT);
    all_answer(&t[0], BYTES, 8, 0, LLSC_OUTSIDE);
    all_answer(&t[0], 0x100, 4, UINT64_MAX, LLSC_VALUE);
    same(llsc_split(&t[0], &t[5]), LLSC_ONE);
    same(llsc_join(&t[0], &t[2]), LLSC_APART);
    same(llsc_close(&t[0], left, BYTES), LLSC_NOT_ALL);
    same(fails(0, 0x100), 0);
    close_same(3);
}

/* Rows of 8 to 2048 bytes, and classes. */
static void rows(void) {
    for (uint64_t granule = 0; granule <= LLSC_MAX_GRANULE; granule += 1) {
        uint64_t row = UINT64_C(8) << granule;
        open_with(2, 2, LLSC_MAX_LIMIT, granule);
        link_at(0, 2 * row);
        touch(1, 3 * row - 1);
        same(fails(0, 2 * row), 1);
        link_at(0, 2 * row);
        touch(1, 2 * row - 1);
        touch(1, 3 * row);
        same(fails(0, 3 * row - 8), 0);
        link_at(0, 2 * row);
        touch(1, 4 * row); /* of two classes the same */
        same(fails(0, 2 * row), 1);
        close_same(2);
    }
}

/* A class that has had all of its writes. Another one hasn't. */
static void spent(void) {
    uint64_t value;
    uint32_t failed = 9;
    open_with(2, 2, 3, 0);
    touch(0, 0x100);
    link_at(1, 0x100);
    same(fails(1, 0x100), 0);
    touch(1, 0x110); /* the class's third, in another row of it */
    link_at(0, 0x100);
    same(llsc_store_now(&t[0], 0x100, 4, 5), LLSC_SPENT);
    same(llsc_store_now8(&t[1], 0x100, 5), LLSC_SPENT);
    same(llsc_store(&t[1], 0x110, 1, 5), LLSC_SPENT);
    same(llsc_store4(&t[1], 0x110, 5), LLSC_SPENT);
    same(llsc_store_now4(&t[1], 0x110, UINT64_C(1) << 32), LLSC_VALUE); /* before that is looked at */
    same(llsc_load_ex8(&t[0], 0x100, &value), LLSC_DONE);
    same(llsc_store_ex8(&t[0], 0x100, value, &failed), LLSC_DONE);
    same(failed, 1);
    touch(0, 0x108);
    close_same(2);
}

/* Accesses of all widths at places without order, by threads that take turns, beside a memory of bytes. */
static void turns(void) {
    uint64_t seed = 88172645463325252, found;
    uint32_t failed;
    open_plain(8);
    for (unsigned k = 0; k < 20000; k += 1) {
        uint64_t number = next_number(&seed);
        uint32_t width = widths[number & 3];
        uint64_t value = next_number(&seed) & most(width);
        uint64_t addr = (number >> 8) % (k % 2 ? 64 : BYTES) / width * width;
        llsc_thread *at = &t[number >> 4 & 7];
        uint64_t was = value_at(bytes, addr, width);
        if (number & 4) {
            same((llsc_load)(at, addr, width, &found), LLSC_DONE);
            same(found, was);
            same(llsc_load(at, addr, width, &found), LLSC_DONE);
            same(found, was);
        } else if (number & 8) {
            same(llsc_store(at, addr, width, ~value & most(width)), LLSC_DONE);
            same(store_of(at, addr, width, value), LLSC_DONE);
            put_at(bytes, addr, width, value);
        } else {
            same((llsc_load_ex)(at, addr, width, &found), LLSC_DONE);
            same(found, was);
            same((llsc_store_ex)(at, addr, width, ~value & most(width), &failed), LLSC_DONE);
            same(failed, 0);
            same(llsc_load_ex(at, addr, width, &found), LLSC_DONE);
            same(found, ~value & most(width));
            same(llsc_store_ex(at, addr, width, value, &failed), LLSC_DONE);
            same(failed, 0);
            put_at(bytes, addr, width, value);
        }
    }
    close_same(8);
}

int main(void) {
    every_call();
    no_thread();
    places();
    sizes();
    parts();
    exclusives();
    rows();
    spent();
    turns();
    for (unsigned k = 0; k <= LLSC_MAX_THREADS; k += 1)
        same(is_none(&t[k]), 1);
    return ended();
}
