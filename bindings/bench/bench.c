/* Nanoseconds for a push and a pop, from C: by one thread, and by four that push and four that pop. The best of so many runs. */
#define _POSIX_C_SOURCE 200809L
#include "queue_c.h"
#include <pthread.h>
#include <stdio.h>
#include <stdlib.h>
#include <time.h>

enum { RUNS = 9, PAIRS = 50000, THREADS = 4, EACH = 2000 };

static double now(void) {
    struct timespec t;
    clock_gettime(CLOCK_MONOTONIC, &t);
    return (double)t.tv_sec * 1e9 + (double)t.tv_nsec;
}

static queue_c_party open_queue(size_t cap) {
    queue_c_party party = QUEUE_C_NONE;
    if ((cap ? queue_c_bounded(&party, cap) : queue_c_unbounded(&party)) != QUEUE_C_DONE) abort();
    return party;
}

static double alone(size_t cap) {
    queue_c_party party = open_queue(cap);
    uint64_t sum = 0, x = 0;
    double start = now();
    for (uint64_t i = 0; i < PAIRS; i++) {
        queue_c_wait(&party, queue_c_push(&party, i), &x);
        queue_c_wait(&party, queue_c_pop(&party, &x), &x);
        sum += x;
    }
    double took = (now() - start) / PAIRS;
    if (sum != (uint64_t)PAIRS * (PAIRS - 1) / 2) abort();
    queue_c_drop(&party);
    return took;
}

static void *pushes(void *it) {
    uint64_t none = 0;
    for (uint64_t i = 0; i < EACH; i++)
        while (queue_c_wait(it, queue_c_push(it, i), &none) != QUEUE_C_DONE) sched_yield();
    return 0;
}

static void *pops(void *it) {
    uint64_t x = 0;
    for (uint64_t i = 0; i < EACH; i++)
        while (queue_c_wait(it, queue_c_pop(it, &x), &x) != QUEUE_C_DONE) sched_yield();
    return 0;
}

static double threads(size_t cap) {
    queue_c_party party = open_queue(cap), parties[2 * THREADS];
    pthread_t ids[2 * THREADS];
    for (int i = 0; i < 2 * THREADS; i++) {
        parties[i] = (queue_c_party)QUEUE_C_NONE;
        if (queue_c_split(&party, &parties[i]) != QUEUE_C_DONE) abort();
    }
    double start = now();
    for (int i = 0; i < 2 * THREADS; i++)
        if (pthread_create(&ids[i], 0, i < THREADS ? pushes : pops, &parties[i])) abort();
    for (int i = 0; i < 2 * THREADS; i++) pthread_join(ids[i], 0);
    double took = (now() - start) / (THREADS * EACH);
    for (int i = 0; i < 2 * THREADS; i++) queue_c_drop(&parties[i]);
    queue_c_drop(&party);
    return took;
}

int main(void) {
    setvbuf(stdout, 0, _IOLBF, 0);
    size_t caps[] = {1, 4, 1000, 1024, 0};
    for (int k = 0; k < 5; k++) {
        double best_alone = 1e18, best_threads = 1e18, took;
        for (int run = 0; run < RUNS; run++) {
            if ((took = alone(caps[k])) < best_alone) best_alone = took;
            if ((took = threads(caps[k])) < best_threads) best_threads = took;
        }
        printf("C, capacity %zu: alone %.0f, 4 and 4 %.0f\n", caps[k], best_alone, best_threads);
    }
    return 0;
}
