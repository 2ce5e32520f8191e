/* Concurrency Kit's ck_ring, many to many, whose capacity is one less than a power of two. LOOKS lets its size be looked at. */
#include <ck_ring.h>
struct queue { ck_ring_t ring; ck_ring_buffer_t buffer[]; };

static struct queue *make(size_t capacity)
{
    struct queue *q = calloc(1, sizeof *q + (capacity + 1) * sizeof *q->buffer);
    ck_ring_init(&q->ring, capacity + 1);
    return q;
}

static void drop(struct queue *q)
{
    free(q);
}

static struct reply push(struct queue *q, uint64_t value)
{
    return (struct reply){ck_ring_enqueue_mpmc(&q->ring, q->buffer, (void *)value) ? "ok" : "full %" PRIu64, value};
}

static struct reply pop(struct queue *q, uint64_t unused)
{
    void *value = NULL;
    return ck_ring_dequeue_mpmc(&q->ring, q->buffer, &value) ? (struct reply){"item %" PRIu64, (uintptr_t)value} : (struct reply){"empty"};
}

static struct reply len(struct queue *q, uint64_t unused)
{
    return (struct reply){"%" PRIu64, ck_ring_size(&q->ring)};
}

static const struct { const char *name; struct reply (*make)(struct queue *, uint64_t); } calls[] = {
    {"push", push}, {"pop", pop}, {"push", push}, {"pop", pop},
#ifdef LOOKS
    {"len", len},
#endif
};
