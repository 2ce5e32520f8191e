/* The library, watched: it stops the program where a handle is in two calls at a time, which the header forbids and no answer has to show. */
#include "queue_c.h"
#include <pthread.h>
#include <stdio.h>
#include <stdlib.h>

enum { MOST = 4096 };

static pthread_mutex_t lock = PTHREAD_MUTEX_INITIALIZER;
/* The parties that are in a call. */
static void *in_call[MOST];
static size_t count;

static void *enter(const queue_c_party *party) {
    void *at = party->at;
    pthread_mutex_lock(&lock);
    for (size_t i = 0; i < count; i++) {
        if (at && in_call[i] == at) {
            fprintf(stderr, "a handle is in two calls\n");
            abort();
        }
    }
    if (count == MOST) abort();
    in_call[count++] = at;
    pthread_mutex_unlock(&lock);
    return at;
}

static void leave(void *at) {
    size_t i = 0;
    pthread_mutex_lock(&lock);
    while (in_call[i] != at) i++;
    in_call[i] = in_call[--count];
    pthread_mutex_unlock(&lock);
}

#define WATCHED(name, arguments, call) \
    uint32_t right_##name arguments; \
    uint32_t name arguments { \
        void *at = enter(party); \
        uint32_t answer = right_##name call; \
        leave(at); \
        return answer; \
    }

/* A call whose party is gone afterwards, so that a new one may lie there before it returns. */
#define WATCHED_LAST(name, arguments, call) \
    uint32_t right_##name arguments; \
    uint32_t name arguments { \
        leave(enter(party)); \
        return right_##name call; \
    }

WATCHED_LAST(queue_c_drop, (queue_c_party *party), (party))
WATCHED_LAST(queue_c_finish, (queue_c_party *party, uint64_t *left), (party, left))
WATCHED(queue_c_split, (queue_c_party *party, queue_c_party *out), (party, out))
WATCHED(queue_c_push, (queue_c_party *party, uint64_t value), (party, value))
WATCHED(queue_c_force_push, (queue_c_party *party, uint64_t value, uint64_t *old), (party, value, old))
WATCHED(queue_c_pop, (queue_c_party *party, uint64_t *value), (party, value))
WATCHED(queue_c_len, (queue_c_party *party, uint64_t *len), (party, len))
WATCHED(queue_c_resume, (queue_c_party *party, uint64_t *value), (party, value))
WATCHED(queue_c_close, (queue_c_party *party), (party))
WATCHED(queue_c_is_closed, (queue_c_party *party), (party))
WATCHED(queue_c_is_empty, (queue_c_party *party), (party))
WATCHED(queue_c_is_full, (queue_c_party *party), (party))
WATCHED(queue_c_capacity, (queue_c_party *party, uint64_t *cap), (party, cap))
