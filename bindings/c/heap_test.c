/* heap.c: alignments to 4096, blocks of no bytes, blocks that grow, shrink and move, and requests that are refused. */
#include <stdbool.h>
#include <stdint.h>
#include <stdio.h>
#include <stdlib.h>

struct block {
    bool ok;
    void *p;
};
struct block rattle_alloc(size_t n, size_t a);
struct block rattle_realloc(void *p, size_t kept, size_t n, size_t a);
void rattle_dealloc(void *p);

enum { LARGEST = 4096 };
static const size_t times[] = {0, 1, 2, 3, 7, 33, 255, 517};
#define TIMES (sizeof times / sizeof *times)

static unsigned long checks, moved;
#define CHECK(it) do { checks++; if (!(it)) { printf("heap_test.c, line %d: %s\n", __LINE__, #it); exit(1); } } while (0)

/* The largest request that the statement allows, which no memory has. */
static size_t too_large(size_t a) {
    return (SIZE_MAX >> 1) - (a - 1);
}

static void fill(unsigned char *p, size_t n, unsigned seed) {
    for (size_t i = 0; i < n; i++) p[i] = (unsigned char)(seed + i * 7);
}

static bool is_filled(const unsigned char *p, size_t n, unsigned seed) {
    for (size_t i = 0; i < n; i++)
        if (p[i] != (unsigned char)(seed + i * 7)) return false;
    return true;
}

static struct block made(size_t n, size_t a, unsigned seed) {
    struct block block = rattle_alloc(n, a);
    CHECK(block.ok && block.p && (uintptr_t)block.p % a == 0);
    fill(block.p, n, seed);
    return block;
}

/* Of two blocks of n bytes one becomes one of m. */
static void one_of_two(size_t n, size_t m, size_t a) {
    size_t kept = n < m ? n : m;
    struct block block = made(n, a, 1), other = made(n, a, 2);
    CHECK(other.p != block.p);
    struct block grown = rattle_realloc(block.p, kept, m, a);
    CHECK(grown.ok && grown.p && (uintptr_t)grown.p % a == 0 && grown.p != other.p);
    CHECK(is_filled(grown.p, kept, 1) && is_filled(other.p, n, 2));
    moved += grown.p != block.p;
    fill(grown.p, m, 3);
    struct block refused = rattle_realloc(grown.p, m, too_large(a), a);
    CHECK(!refused.ok && refused.p);
    CHECK(is_filled(grown.p, m, 3) && is_filled(other.p, n, 2));
    rattle_dealloc(grown.p);
    rattle_dealloc(other.p);
}

int main(void) {
    for (size_t a = 1; a <= LARGEST; a *= 2) {
        for (unsigned i = 0; i < TIMES; i++)
            for (unsigned j = 0; j < TIMES; j++) one_of_two(times[i] * a, times[j] * a, a);
        struct block refused = rattle_alloc(too_large(a), a);
        CHECK(!refused.ok && refused.p);
    }
    CHECK(moved > 0);
    printf("%lu checks, %lu blocks moved\n", checks, moved);
    return 0;
}
