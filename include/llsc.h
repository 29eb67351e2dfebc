/* llsc.h: a memory with Arm's load-exclusive and store-exclusive, for emulators that have a CPU and lack the memory. C11 or
   C++11, x86-64 with glibc.

   The threads of a guest share one memory of bytes. Each loads and stores 1, 2, 4 or 8 of them, plainly or exclusively. What a
   thread has seen of all accesses is one order, which Arm's memory allows. The orders of threads that are joined are one, and so
   are those of all threads once the memory is closed. A store-exclusive succeeds only where no other thread has stored to its row
   since its load-exclusive. A store counts even if it left the very bytes that were there: bytes that are changed and changed back
   deceive nobody.
   The functions are those of `libllsc_c.a`, which is proved up to these calls. `docs/EMBEDDING.md` says what that means.

       llsc_thread t[4] = {0};   // in C++: = {}
       if (llsc_open_all(t, 4, bytes, sizeof bytes, LLSC_MAX_CLASSES, LLSC_MAX_LIMIT, 0) != LLSC_DONE) ...

       uint64_t old;                          // each of four host threads, with a `t` of its own: adds 1 to the word at 0x1000
       uint32_t failed;
       do {
           if (llsc_load_ex4(&t[i], 0x1000, &old) != LLSC_DONE) ...
           if (llsc_store_ex4(&t[i], 0x1000, (uint32_t)(old + 1), &failed) != LLSC_DONE) ...
       } while (failed);

       if (llsc_close_all(t, 4, bytes, sizeof bytes) != LLSC_DONE) ...                 // once all of them have ended

       cc main.c libllsc_c.a llsc_heap.c -pthread

   Addresses and widths are in bytes. An address counts from 0, the first byte of the memory; it is no address of the host, which
   has none for the guest's bytes while the memory is open. The byte with the lowest address is a value's lowest. */
#ifndef LLSC_LLSC_H
#define LLSC_LLSC_H

#if !defined(__x86_64__) || defined(__ILP32__)
#error "libllsc_c.a is for x86-64"
#endif

#include <sched.h>
#include <stddef.h>
#include <stdint.h>

#ifdef __cplusplus
extern "C" {
#endif

/* What a memory may be made of. */
#define LLSC_MIN_BYTES 65536                 /* its bytes: from this number */
#define LLSC_MAX_BYTES 16777216              /* to this one */
#define LLSC_STEP_BYTES 4096                 /* by such steps */
#define LLSC_MAX_THREADS 16                  /* guest threads: 1 to 16 */
#define LLSC_MAX_CLASSES 4096                /* classes of rows: a power of two, 1 to 4096 */
#define LLSC_MAX_LIMIT (UINT64_C(1) << 62)   /* writes that a class takes: 1 to 2 to the 62 */
#define LLSC_MAX_GRANULE 8                   /* a row has 8 << granule bytes: 0 to 8 */

/* What calls answer. An answer other than LLSC_DONE is a refusal: the call has then changed nothing in memory, and nothing where
   its pointers lead. Its thread has done nothing. After LLSC_BUSY and LLSC_SPENT the thread may have seen more of what others did.
   After any other refusal it has seen no more than before. */
enum {
    LLSC_DONE = 0,         /* the call is done */
    LLSC_NO_THREAD = 1,    /* there is no thread: it was never opened, or is closed, ended, or taken in by another */
    LLSC_WIDTH = 2,        /* the width is not 1, 2, 4 or 8 */
    LLSC_ALIGNMENT = 3,    /* the address is no multiple of the width */
    LLSC_OUTSIDE = 4,      /* the access ends outside of memory */
    LLSC_VALUE = 5,        /* the value has more bits than the width */
    LLSC_SEVERAL = 6,      /* there are several threads, which are to be split before one of them can make an access */
    LLSC_ONE = 7,          /* there is one thread, which can't be split */
    LLSC_USED = 8,         /* the threads may have made accesses (they were joined), and can't be split any more */
    LLSC_APART = 9,        /* the second threads don't come next behind the first */
    LLSC_NOT_ALL = 10,     /* threads of the memory are missing */
    LLSC_LENGTH = 11,      /* the bytes are not as many as the memory has */
    LLSC_BUSY = 12,        /* another thread is storing in the class of the row, or came first: try again */
    LLSC_SPENT = 13,       /* the class of the row has had as many writes as it takes, and takes no more */
    LLSC_NO_MEMORY = 14,   /* `malloc` had none */
    LLSC_THREAD_HERE = 15, /* there is a thread here already, where one is to be put */
    LLSC_SIZE = 16,        /* a number of the memory is out of range: of its bytes, threads, classes, or the limit */
    LLSC_GRANULE = 17      /* the granule is out of range */
};

/* A guest thread, or several that weren't split yet: those with the numbers from one to another. All zeros is none. Any host
   thread may make any call, and calls with different structs may run beside each other.

   What the caller owes, which no call can see:
     - a struct begins as zeros, and from then on nothing but these calls writes it;
     - it is moved and not copied: of two copies only one is used from then on;
     - one call at a time has it. It may go from one host thread to another by what orders memory: the start or the join of a
       thread, a lock, an atomic store and load;
     - the arguments of a call lie apart: none of them overlaps another, or the bytes;
     - threads that are joined are of one memory;
     - no pointer is null, and each leads to what its type says, `bytes` to `len` of them;
     - no call is made by a signal handler, or in the forked child of a process with several threads. */
typedef struct {
    uint64_t llsc_private_live;
    void *llsc_private_at;
} llsc_thread;

#ifdef __cplusplus
static_assert(sizeof(llsc_thread) == 16, "what the library has");
#else
_Static_assert(sizeof(llsc_thread) == 16, "what the library has");
#endif

#define LLSC_PRIVATE_CALL __attribute__((__nonnull__, __nothrow__))
#define LLSC_PRIVATE_ANSWERS __attribute__((__nonnull__, __nothrow__, __warn_unused_result__))

/* Makes a memory of `len` bytes, which are copied from `bytes`, and puts all of its threads into `t`. Threads have the numbers
   from 0 to `threads - 1`. Rows, on which exclusives hold their reservations, have `8 << granule` bytes, and are dealt out to so
   many `classes`: row r has the class r modulo `classes`. Each class takes `limit` writes. Who has no other wish takes
   LLSC_MAX_CLASSES, LLSC_MAX_LIMIT and 0.

   Answers LLSC_SIZE, LLSC_GRANULE, LLSC_THREAD_HERE (in `t`), LLSC_NO_MEMORY: the first of these that holds. */
LLSC_PRIVATE_ANSWERS
uint32_t llsc_open(llsc_thread *__restrict t, const uint8_t *__restrict bytes, size_t len, uint64_t threads, uint64_t classes,
                   uint64_t limit, uint64_t granule);

/* Splits the last of several threads off, and puts it into `last`. So threads are split before any of them makes an access; each
   can make one as soon as it stands alone.

   Answers LLSC_THREAD_HERE (in `last`), LLSC_NO_THREAD (in `t`), LLSC_ONE, LLSC_USED, LLSC_NO_MEMORY. */
LLSC_PRIVATE_ANSWERS
uint32_t llsc_split(llsc_thread *__restrict t, llsc_thread *__restrict last);

/* Loads the `width` bytes from `addr` up.

   This and every access answers LLSC_NO_THREAD, LLSC_SEVERAL, LLSC_WIDTH, LLSC_OUTSIDE, LLSC_ALIGNMENT: the first of these that
   holds. None waits for another thread, and none asks for memory. */
LLSC_PRIVATE_ANSWERS
uint32_t llsc_load(llsc_thread *__restrict t, uint64_t addr, uint32_t width, uint64_t *__restrict value);

/* Stores a value there, unless another thread is storing in the row's class, or comes first: `llsc_store`, below, then tries again.

   Answers LLSC_VALUE behind those of a load, and then LLSC_BUSY or LLSC_SPENT. */
LLSC_PRIVATE_ANSWERS
uint32_t llsc_store_now(llsc_thread *__restrict t, uint64_t addr, uint32_t width, uint64_t value);

/* Loads the bytes, as LDREX does: the thread holds a reservation on the row from then on, in place of any that it held, unless
   another thread is just storing in the row's class. Then it holds none, and its store-exclusive will fail.

   Answers as a load does. */
LLSC_PRIVATE_ANSWERS
uint32_t llsc_load_ex(llsc_thread *__restrict t, uint64_t addr, uint32_t width, uint64_t *__restrict value);

/* Stores a value, as STREX does, if the thread holds a reservation on the row and no store has begun in the row's class since,
   of any thread, and the class takes one more. `*failed` is 0 then. Else nothing is stored, and `*failed` is 1; that is LLSC_DONE
   as well. The thread holds no reservation from then on. The width and the address needn't be those of the load-exclusive; the
   row is what counts.

   Answers LLSC_VALUE behind those of a load. */
LLSC_PRIVATE_ANSWERS
uint32_t llsc_store_ex(llsc_thread *__restrict t, uint64_t addr, uint32_t width, uint64_t value, uint32_t *__restrict failed);

/* The same accesses, each of one width. They are quicker; see below what becomes of a width that the compiler knows. */
LLSC_PRIVATE_ANSWERS uint32_t llsc_load1(llsc_thread *__restrict t, uint64_t addr, uint64_t *__restrict value);
LLSC_PRIVATE_ANSWERS uint32_t llsc_load2(llsc_thread *__restrict t, uint64_t addr, uint64_t *__restrict value);
LLSC_PRIVATE_ANSWERS uint32_t llsc_load4(llsc_thread *__restrict t, uint64_t addr, uint64_t *__restrict value);
LLSC_PRIVATE_ANSWERS uint32_t llsc_load8(llsc_thread *__restrict t, uint64_t addr, uint64_t *__restrict value);
LLSC_PRIVATE_ANSWERS uint32_t llsc_store_now1(llsc_thread *__restrict t, uint64_t addr, uint64_t value);
LLSC_PRIVATE_ANSWERS uint32_t llsc_store_now2(llsc_thread *__restrict t, uint64_t addr, uint64_t value);
LLSC_PRIVATE_ANSWERS uint32_t llsc_store_now4(llsc_thread *__restrict t, uint64_t addr, uint64_t value);
LLSC_PRIVATE_ANSWERS uint32_t llsc_store_now8(llsc_thread *__restrict t, uint64_t addr, uint64_t value);
LLSC_PRIVATE_ANSWERS uint32_t llsc_load_ex1(llsc_thread *__restrict t, uint64_t addr, uint64_t *__restrict value);
LLSC_PRIVATE_ANSWERS uint32_t llsc_load_ex2(llsc_thread *__restrict t, uint64_t addr, uint64_t *__restrict value);
LLSC_PRIVATE_ANSWERS uint32_t llsc_load_ex4(llsc_thread *__restrict t, uint64_t addr, uint64_t *__restrict value);
LLSC_PRIVATE_ANSWERS uint32_t llsc_load_ex8(llsc_thread *__restrict t, uint64_t addr, uint64_t *__restrict value);
LLSC_PRIVATE_ANSWERS
uint32_t llsc_store_ex1(llsc_thread *__restrict t, uint64_t addr, uint64_t value, uint32_t *__restrict failed);
LLSC_PRIVATE_ANSWERS
uint32_t llsc_store_ex2(llsc_thread *__restrict t, uint64_t addr, uint64_t value, uint32_t *__restrict failed);
LLSC_PRIVATE_ANSWERS
uint32_t llsc_store_ex4(llsc_thread *__restrict t, uint64_t addr, uint64_t value, uint32_t *__restrict failed);
LLSC_PRIVATE_ANSWERS
uint32_t llsc_store_ex8(llsc_thread *__restrict t, uint64_t addr, uint64_t value, uint32_t *__restrict failed);

/* Ends the thread's reservation, as CLREX does, if it holds one.

   Answers LLSC_NO_THREAD, LLSC_SEVERAL. */
LLSC_PRIVATE_CALL
uint32_t llsc_clear_ex(llsc_thread *t);

/* Takes the threads of `next` in, whose numbers come next behind those of `t`, and are of the same memory. `next` is all zeros
   then. It is for closing: threads that were joined can't be split again.

   Answers LLSC_NO_THREAD (in `t` or in `next`), LLSC_APART. */
LLSC_PRIVATE_ANSWERS
uint32_t llsc_join(llsc_thread *__restrict t, llsc_thread *__restrict next);

/* Closes a memory, all of whose threads are in `t`: puts its `len` bytes, as they are left, into `bytes`, and frees it. `t` is all
   zeros then.

   Answers LLSC_NO_THREAD, LLSC_NOT_ALL, LLSC_LENGTH. */
LLSC_PRIVATE_ANSWERS
uint32_t llsc_close(llsc_thread *__restrict t, uint8_t *__restrict bytes, size_t len);

/* Lets the threads in `t` go, one or several, used or not, and without asking for the bytes. `t` is all zeros then. The last call
   that lets threads of a memory go frees it; a memory of which some are gone can't be closed.

   Answers LLSC_NO_THREAD. */
LLSC_PRIVATE_CALL
uint32_t llsc_end(llsc_thread *t);

/* What follows is made of the calls above. */

/* A load, a load-exclusive and a store-exclusive are made by the call of their width: at once where the compiler knows it, and else
   by a switch. What is answered is the same. Their functions are `(llsc_load)` and so on, in brackets. */
LLSC_PRIVATE_ANSWERS
static inline uint32_t llsc_private_load(llsc_thread *t, uint64_t addr, uint32_t width, uint64_t *value) {
    switch (width) {
    case 1: return llsc_load1(t, addr, value);
    case 2: return llsc_load2(t, addr, value);
    case 4: return llsc_load4(t, addr, value);
    case 8: return llsc_load8(t, addr, value);
    default: return llsc_load(t, addr, width, value);
    }
}
#define llsc_load(t, addr, width, value) llsc_private_load(t, addr, width, value)

LLSC_PRIVATE_ANSWERS
static inline uint32_t llsc_private_load_ex(llsc_thread *t, uint64_t addr, uint32_t width, uint64_t *value) {
    switch (width) {
    case 1: return llsc_load_ex1(t, addr, value);
    case 2: return llsc_load_ex2(t, addr, value);
    case 4: return llsc_load_ex4(t, addr, value);
    case 8: return llsc_load_ex8(t, addr, value);
    default: return llsc_load_ex(t, addr, width, value);
    }
}
#define llsc_load_ex(t, addr, width, value) llsc_private_load_ex(t, addr, width, value)

LLSC_PRIVATE_ANSWERS
static inline uint32_t llsc_private_store_ex(llsc_thread *t, uint64_t addr, uint32_t width, uint64_t value, uint32_t *failed) {
    switch (width) {
    case 1: return llsc_store_ex1(t, addr, value, failed);
    case 2: return llsc_store_ex2(t, addr, value, failed);
    case 4: return llsc_store_ex4(t, addr, value, failed);
    case 8: return llsc_store_ex8(t, addr, value, failed);
    default: return llsc_store_ex(t, addr, width, value, failed);
    }
}
#define llsc_store_ex(t, addr, width, value, failed) llsc_private_store_ex(t, addr, width, value, failed)

/* Waits a moment before a store is tried again: by a pause at first, and once that was often in vain by giving the processor
   up. */
static inline void llsc_private_wait(uint32_t *tries) {
    if (*tries < 64) {
        *tries += 1;
        __builtin_ia32_pause();
    } else {
        sched_yield();
    }
}

/* Stores a value, trying again while it is LLSC_BUSY: 64 times after a pause, and then whenever the host's scheduler lets it. It
   is the one call that may wait for other threads, and nothing promises when it gets through.

   Answers as `llsc_store_now` does, but for LLSC_BUSY. */
LLSC_PRIVATE_ANSWERS
static inline uint32_t llsc_store(llsc_thread *t, uint64_t addr, uint32_t width, uint64_t value) {
    uint32_t answer, tries = 0;
    while ((answer = llsc_store_now(t, addr, width, value)) == LLSC_BUSY)
        llsc_private_wait(&tries);
    return answer;
}

/* The same for each width. */
LLSC_PRIVATE_ANSWERS
static inline uint32_t llsc_store1(llsc_thread *t, uint64_t addr, uint64_t value) {
    uint32_t answer, tries = 0;
    while ((answer = llsc_store_now1(t, addr, value)) == LLSC_BUSY)
        llsc_private_wait(&tries);
    return answer;
}

LLSC_PRIVATE_ANSWERS
static inline uint32_t llsc_store2(llsc_thread *t, uint64_t addr, uint64_t value) {
    uint32_t answer, tries = 0;
    while ((answer = llsc_store_now2(t, addr, value)) == LLSC_BUSY)
        llsc_private_wait(&tries);
    return answer;
}

LLSC_PRIVATE_ANSWERS
static inline uint32_t llsc_store4(llsc_thread *t, uint64_t addr, uint64_t value) {
    uint32_t answer, tries = 0;
    while ((answer = llsc_store_now4(t, addr, value)) == LLSC_BUSY)
        llsc_private_wait(&tries);
    return answer;
}

LLSC_PRIVATE_ANSWERS
static inline uint32_t llsc_store8(llsc_thread *t, uint64_t addr, uint64_t value) {
    uint32_t answer, tries = 0;
    while ((answer = llsc_store_now8(t, addr, value)) == LLSC_BUSY)
        llsc_private_wait(&tries);
    return answer;
}

/* Makes a memory, and puts each of its threads into a struct of its own: thread i into `t[i]`, of so many as `threads` says. The
   other words are those of `llsc_open`. What was done is undone where a step is refused, and `t` is as it was.

   Answers as `llsc_open` does, of LLSC_THREAD_HERE in any of them; but where one behind `t[0]` has a thread and `malloc` has no
   memory, it may be LLSC_NO_MEMORY. */
LLSC_PRIVATE_ANSWERS
static inline uint32_t llsc_open_all(llsc_thread *t, size_t threads, const uint8_t *bytes, size_t len, uint64_t classes,
                                     uint64_t limit, uint64_t granule) {
    if (threads == 0)
        return LLSC_SIZE;
    uint32_t answer = llsc_open(&t[0], bytes, len, threads, classes, limit, granule);
    if (answer != LLSC_DONE)
        return answer;
    size_t i;
    for (i = threads - 1; i > 0 && answer == LLSC_DONE; i -= 1)
        answer = llsc_split(&t[0], &t[i]);
    if (answer == LLSC_DONE)
        return LLSC_DONE;
    for (i += 2; i < threads; i += 1)
        llsc_end(&t[i]);
    llsc_end(&t[0]);
    return answer;
}

/* Joins the threads of `llsc_open_all`, all of which are done with their accesses, and closes their memory.

   Answers as `llsc_close` does, or LLSC_APART, where their numbers don't come one behind another. That they are of one memory is
   what the caller owes. Where it is refused, threads that were joined before stay in `t[0]`; it may be called again. */
LLSC_PRIVATE_ANSWERS
static inline uint32_t llsc_close_all(llsc_thread *t, size_t threads, uint8_t *bytes, size_t len) {
    if (threads == 0)
        return LLSC_NO_THREAD;
    for (size_t i = 1; i < threads; i += 1)
        if (llsc_join(&t[0], &t[i]) == LLSC_APART)
            return LLSC_APART;
    return llsc_close(&t[0], bytes, len);
}

#ifdef __cplusplus
}
#endif

#endif
