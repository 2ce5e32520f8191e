/* A malloc that aligns to 8 and never to 16, over glibc's. For the tests of heap.c. */
#include <stddef.h>
#include <stdint.h>
#include <stdlib.h>
#include <string.h>

void *__libc_malloc(size_t n);
void __libc_free(void *p);

/* What is before a block of this malloc: posix_memalign's blocks have no such mark, and are at multiples of 16. */
struct head {
    uint64_t n, mark;
};
static const uint64_t mark = 0x1077A116AED70E18;
enum { BEFORE = 8 + sizeof(struct head) };

static struct head *head_of(void *p) {
    struct head *head = (struct head *)((char *)p - sizeof(struct head));
    return (uintptr_t)p % 16 == 8 && head->mark == mark ? head : NULL;
}

void *malloc(size_t n) {
    if (n > SIZE_MAX / 4) return NULL;
    char *p = __libc_malloc(BEFORE + n);
    if (!p) return NULL;
    *(struct head *)(p + 8) = (struct head){n, mark};
    return p + BEFORE;
}

void free(void *p) {
    if (!p) return;
    struct head *head = head_of(p);
    if (head) head->mark = 0;
    __libc_free(head ? (char *)p - BEFORE : p);
}

void *realloc(void *p, size_t n) {
    struct head *head = p ? head_of(p) : NULL;
    /* heap.c has no block of posix_memalign moved by realloc. */
    if (p && !head) abort();
    void *moved = malloc(n);
    if (moved && head) {
        memcpy(moved, p, head->n < n ? head->n : n);
        free(p);
    }
    return moved;
}
