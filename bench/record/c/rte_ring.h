/* DPDK's rte_ring, many to many, of exactly this capacity. FLAGS may be its modes, LOOKS lets its count be looked at. */
#include <rte_config.h>
#include <rte_ring.h>
#ifndef FLAGS
#define FLAGS 0
#endif
struct queue { struct rte_ring ring; };

static struct queue *make(size_t capacity)
{
    size_t slots = 1;
    while (slots < capacity + 1)
        slots *= 2;
    void *memory;
    if (posix_memalign(&memory, 128, rte_ring_get_memsize(slots)) || rte_ring_init(memory, "ring", capacity, RING_F_EXACT_SZ | (FLAGS)))
        abort();
    return memory;
}

static void drop(struct queue *q)
{
    free(q);
}

static struct reply push(struct queue *q, uint64_t value)
{
    return (struct reply){rte_ring_enqueue(&q->ring, (void *)value) ? "full %" PRIu64 : "ok", value};
}

static struct reply pop(struct queue *q, uint64_t unused)
{
    void *value = NULL;
    return rte_ring_dequeue(&q->ring, &value) ? (struct reply){"empty"} : (struct reply){"item %" PRIu64, (uintptr_t)value};
}

static struct reply len(struct queue *q, uint64_t unused)
{
    return (struct reply){"%" PRIu64, rte_ring_count(&q->ring)};
}

static const struct { const char *name; struct reply (*make)(struct queue *, uint64_t); } calls[] = {
    {"push", push}, {"pop", pop}, {"push", push}, {"pop", pop},
#ifdef LOOKS
    {"len", len},
#endif
};
