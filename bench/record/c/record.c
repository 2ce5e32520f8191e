/* Records small histories of threads on a queue, a new queue for each: record CAPACITY [HISTORIES]. QUEUE is a file that has what a queue of yours needs:
   its type, make, drop and calls, as mutex.h. */
#include <inttypes.h>
#include <pthread.h>
#include <sched.h>
#include <stdatomic.h>
#include <stdio.h>
#include <stdlib.h>
#include <string.h>

#define THREADS 3
#define CALLS 8

struct reply { const char *text; uint64_t value; };     /* "item %" PRIu64 and 7, "empty" */
#include QUEUE

static struct queue *queue;
static atomic_uint stamp, arrived;
static uint64_t seed;
static char lines[2 * THREADS * CALLS][64];

static void *run(void *mine)
{
    unsigned party = (uintptr_t)mine, random = seed * THREADS + party;
    atomic_fetch_add(&arrived, 1);
    for (unsigned spins = 0; atomic_load(&arrived) < THREADS; spins++)
        if (spins > 1000)
            sched_yield();
    for (unsigned at = 0; at < CALLS; at++) {
        unsigned which = rand_r(&random) % (sizeof calls / sizeof *calls);
        uint64_t value = 100 * (party + 1) + at;
        for (volatile unsigned pause = rand_r(&random) % 64; pause > 0; pause--)
            ;
        unsigned begin = atomic_fetch_add(&stamp, 1);
        struct reply reply = calls[which].make(queue, value);
        unsigned end = atomic_fetch_add(&stamp, 1);
        snprintf(lines[begin], sizeof *lines, strcmp(calls[which].name, "push") ? "%u %s" : "%u %s %" PRIu64, party, calls[which].name, value);
        int length = snprintf(lines[end], sizeof *lines, "%u = ", party);
        snprintf(lines[end] + length, sizeof *lines - length, reply.text, reply.value);
    }
    return NULL;
}

int main(int count, char **words)
{
    uint64_t histories = count > 2 ? strtoull(words[2], NULL, 10) : 2000;
    for (seed = 0; seed < histories; seed++) {
        pthread_t threads[THREADS];
        queue = make(strtoull(words[1], NULL, 10));
        stamp = arrived = 0;
        for (uintptr_t party = 0; party < THREADS; party++)
            pthread_create(&threads[party], NULL, run, (void *)party);
        for (unsigned party = 0; party < THREADS; party++)
            pthread_join(threads[party], NULL);
        for (unsigned line = 0; line < 2 * THREADS * CALLS; line++)
            puts(lines[line]);
        puts("");
        drop(queue);
    }
}
