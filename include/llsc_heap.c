/* The heap of `libllsc_c.a`, which asks for memory by these three functions, and by nothing else: they are `malloc`, `realloc` and
   `free`. To be compiled and linked with the library, as it is or over an allocator of the program's own. The three are of one
   allocator. A block is asked for with n bytes and an alignment of a, a power of two up to 16 that divides n; C's `malloc` gives
   such. Any host thread may call them, and a block may be freed by another one than asked for it. */
#include <stddef.h>
#include <stdlib.h>

#ifdef __cplusplus
extern "C" {
#endif

/* Whether there is memory, and where; a pointer that isn't null in either case. */
struct rattle_tried {
    unsigned char ok;
    unsigned char *p;
};

struct rattle_tried rattle_alloc(size_t n, size_t a);
struct rattle_tried rattle_realloc(unsigned char *p, size_t kept, size_t n, size_t a);
void rattle_dealloc(unsigned char *p);

static struct rattle_tried tried(void *p) {
    static unsigned char nothing;
    struct rattle_tried answer;
    answer.ok = p != NULL;
    answer.p = p != NULL ? (unsigned char *)p : &nothing;
    return answer;
}

/* A new block of n bytes, or of a bytes where n is 0. */
struct rattle_tried rattle_alloc(size_t n, size_t a) { return tried(malloc(n != 0 ? n : a)); }

/* The block at p with n bytes, the first of which, as many as are to be kept, are as they were. Where there is none, all is as it
   was. */
struct rattle_tried rattle_realloc(unsigned char *p, size_t kept, size_t n, size_t a) {
    (void)kept; /* realloc keeps all */
    return tried(realloc(p, n != 0 ? n : a));
}

/* Frees a block. */
void rattle_dealloc(unsigned char *p) { free(p); }

#ifdef __cplusplus
}
#endif
