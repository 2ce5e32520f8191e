/* A ring under a mutex. Where WRONG is defined, its pop looks at the front under the mutex, and takes it off under the mutex once more. */
struct queue { pthread_mutex_t lock; size_t capacity, count, front; uint64_t items[]; };

static struct queue *make(size_t capacity)
{
    struct queue *q = calloc(1, sizeof *q + capacity * sizeof *q->items);
    pthread_mutex_init(&q->lock, NULL);
    q->capacity = capacity;
    return q;
}

static void drop(struct queue *q)
{
    pthread_mutex_destroy(&q->lock);
    free(q);
}

static struct reply push(struct queue *q, uint64_t value)
{
    pthread_mutex_lock(&q->lock);
    int is_full = q->count == q->capacity;
    if (!is_full)
        q->items[(q->front + q->count++) % q->capacity] = value;
    pthread_mutex_unlock(&q->lock);
    return (struct reply){is_full ? "full %" PRIu64 : "ok", value};
}

static struct reply pop(struct queue *q, uint64_t unused)
{
    pthread_mutex_lock(&q->lock);
    struct reply reply = {q->count ? "item %" PRIu64 : "empty", q->items[q->front]};
#ifdef WRONG
    pthread_mutex_unlock(&q->lock);
    pthread_mutex_lock(&q->lock);
#endif
    if (q->count) {
        q->front = (q->front + 1) % q->capacity;
        q->count--;
    }
    pthread_mutex_unlock(&q->lock);
    return reply;
}

static struct reply len(struct queue *q, uint64_t unused)
{
    pthread_mutex_lock(&q->lock);
    struct reply reply = {"%" PRIu64, q->count};
    pthread_mutex_unlock(&q->lock);
    return reply;
}

static const struct { const char *name; struct reply (*make)(struct queue *, uint64_t); } calls[] = {{"push", push}, {"pop", pop}, {"push", push}, {"pop", pop}, {"len", len}};
