/* The three functions by which the library asks for memory. Its proof takes them as stated, in the kit's libc::heap:
 *   rattle_alloc      memory for n bytes, aligned to a, that nothing else has; or `ok` is false, and nothing is changed
 *   rattle_realloc    the block p has n bytes, of which the first `kept` are as they were, and may have moved; or `ok` is false, and p is as it was
 *   rattle_dealloc    the block p goes
 * n may be 0 and is below 2^63; a is a power of two. The proof asks for alignments up to 16 alone. Here each is met, over a malloc that aligns less, too.
 * Where `ok` is false, the pointer is not null, and there is no block.
 *
 * They are weak, so that a program may define its own, and hidden, so that a shared library does not export them. */
#include <stdbool.h>
#include <stddef.h>
#include <stdint.h>
#include <stdlib.h>
#include <string.h>

struct block {
    bool ok;
    void *p;
};

#define HEAP __attribute__((weak, visibility("hidden")))
HEAP struct block rattle_alloc(size_t n, size_t a);
HEAP struct block rattle_realloc(void *p, size_t kept, size_t n, size_t a);
HEAP void rattle_dealloc(void *p);

static char nothing;

static struct block answer(void *p) {
    return p ? (struct block){true, p} : (struct block){false, &nothing};
}

static void *aligned(size_t n, size_t a) {
    void *p = malloc(n);
    if (!p || ((uintptr_t)p & (a - 1)) == 0) return p;
    free(p);
    return posix_memalign(&p, a < sizeof p ? sizeof p : a, n) ? NULL : p;
}

struct block rattle_alloc(size_t n, size_t a) {
    return answer(aligned(n ? n : a, a));
}

struct block rattle_realloc(void *p, size_t kept, size_t n, size_t a) {
    /* realloc aligns as malloc does, to 8 at least. */
    if (a <= sizeof p) return answer(realloc(p, n ? n : a));
    struct block moved = rattle_alloc(n, a);
    if (moved.ok) {
        memcpy(moved.p, p, kept);
        free(p);
    }
    return moved;
}

void rattle_dealloc(void *p) {
    free(p);
}
