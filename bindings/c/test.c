/* Calls each function, with wrong use that is checked. Then threads push and pop, and each number is counted. Ends with the number of failed checks. */
#include "queue_c.h"
#include <pthread.h>
#include <stdio.h>
#include <stdlib.h>
#include <string.h>

enum { PUSHERS = 4, POPPERS = 4 };

static int failed;
#define CHECK(it) do { if (!(it)) { failed++; printf("line %d: %s\n", __LINE__, #it); } } while (0)

static uint32_t push(queue_c_party *party, uint64_t value) {
    uint64_t none = 0;
    return queue_c_wait(party, queue_c_push(party, value), &none);
}

static uint32_t pop(queue_c_party *party, uint64_t *value) {
    return queue_c_wait(party, queue_c_pop(party, value), value);
}

static void each_call_of_a_bounded_queue(void) {
    queue_c_party a = QUEUE_C_NONE, b = QUEUE_C_NONE;
    uint64_t x = 0, n = 9;
    CHECK(queue_c_bounded(&a, 2) == QUEUE_C_DONE);
    CHECK(queue_c_capacity(&a, &n) == QUEUE_C_YES && n == 2);
    CHECK(queue_c_is_empty(&a) == QUEUE_C_YES && queue_c_is_full(&a) == QUEUE_C_DONE);
    CHECK(queue_c_pop(&a, &x) == QUEUE_C_EMPTY && x == 0);
    CHECK(queue_c_push(&a, 7) == QUEUE_C_DONE && queue_c_push(&a, 8) == QUEUE_C_DONE);
    CHECK(queue_c_push(&a, 9) == QUEUE_C_FULL);
    CHECK(queue_c_is_empty(&a) == QUEUE_C_DONE && queue_c_is_full(&a) == QUEUE_C_YES);
    CHECK(queue_c_force_push(&a, 9, &x) == QUEUE_C_YES && x == 7);
    CHECK(queue_c_len(&a, &n) == QUEUE_C_DONE && n == 2);
    CHECK(queue_c_split(&a, &b) == QUEUE_C_DONE);
    CHECK(queue_c_pop(&b, &x) == QUEUE_C_DONE && x == 8);
    CHECK(queue_c_force_push(&b, 10, &x) == QUEUE_C_DONE && x == 8);
    CHECK(queue_c_is_closed(&b) == QUEUE_C_DONE);
    CHECK(queue_c_close(&b) == QUEUE_C_YES && queue_c_close(&a) == QUEUE_C_DONE);
    CHECK(queue_c_is_closed(&a) == QUEUE_C_YES);
    CHECK(queue_c_push(&a, 1) == QUEUE_C_CLOSED && queue_c_force_push(&a, 1, &x) == QUEUE_C_CLOSED);
    CHECK(queue_c_drop(&a) == QUEUE_C_DONE);
    CHECK(queue_c_pop(&b, &x) == QUEUE_C_DONE && x == 9);
    CHECK(queue_c_pop(&b, &x) == QUEUE_C_DONE && x == 10);
    CHECK(queue_c_pop(&b, &x) == QUEUE_C_CLOSED && x == 10);
    CHECK(queue_c_drop(&b) == QUEUE_C_DONE);
}

static void one_slot(void) {
    queue_c_party a = QUEUE_C_NONE;
    uint64_t x = 0;
    CHECK(queue_c_bounded(&a, 1) == QUEUE_C_DONE);
    CHECK(queue_c_push(&a, 3) == QUEUE_C_DONE && queue_c_push(&a, 4) == QUEUE_C_FULL);
    CHECK(queue_c_force_push(&a, 4, &x) == QUEUE_C_YES && x == 3);
    CHECK(queue_c_pop(&a, &x) == QUEUE_C_DONE && x == 4);
    CHECK(queue_c_drop(&a) == QUEUE_C_DONE);
}

static void many_blocks(void) {
    queue_c_party a = QUEUE_C_NONE;
    uint64_t x = 0, n = 9;
    CHECK(queue_c_unbounded(&a) == QUEUE_C_DONE);
    CHECK(queue_c_capacity(&a, &n) == QUEUE_C_DONE && n == 9);
    for (uint64_t i = 0; i < 1000; i++) CHECK(queue_c_push(&a, i) == QUEUE_C_DONE);
    for (uint64_t i = 0; i < 500; i++) CHECK(queue_c_pop(&a, &x) == QUEUE_C_DONE && x == i);
    CHECK(queue_c_finish(&a, &n) == QUEUE_C_DONE && n == 500);
    CHECK(queue_c_finish(&a, &n) == QUEUE_C_NO_PARTY && n == 500);
}

static void a_handle_without_a_party(void) {
    queue_c_party none = QUEUE_C_NONE, other = QUEUE_C_NONE;
    uint64_t x = 5;
    CHECK(queue_c_push(&none, 1) == QUEUE_C_NO_PARTY);
    CHECK(queue_c_force_push(&none, 1, &x) == QUEUE_C_NO_PARTY);
    CHECK(queue_c_pop(&none, &x) == QUEUE_C_NO_PARTY);
    CHECK(queue_c_len(&none, &x) == QUEUE_C_NO_PARTY);
    CHECK(queue_c_resume(&none, &x) == QUEUE_C_NO_PARTY);
    CHECK(queue_c_capacity(&none, &x) == QUEUE_C_NO_PARTY);
    CHECK(queue_c_finish(&none, &x) == QUEUE_C_NO_PARTY);
    CHECK(queue_c_close(&none) == QUEUE_C_NO_PARTY);
    CHECK(queue_c_is_closed(&none) == QUEUE_C_NO_PARTY);
    CHECK(queue_c_is_empty(&none) == QUEUE_C_NO_PARTY);
    CHECK(queue_c_is_full(&none) == QUEUE_C_NO_PARTY);
    CHECK(queue_c_split(&none, &other) == QUEUE_C_NO_PARTY);
    CHECK(queue_c_drop(&none) == QUEUE_C_NO_PARTY);
    CHECK(x == 5);
}

static void wrong_use_that_is_checked(void) {
    queue_c_party a = QUEUE_C_NONE, b = QUEUE_C_NONE, c = QUEUE_C_NONE;
    uint64_t n = 9;
    CHECK(queue_c_bounded(&a, 0) == QUEUE_C_NO_ROOM);
    CHECK(queue_c_bounded(&a, SIZE_MAX) == QUEUE_C_NO_MEMORY);
    CHECK(queue_c_bounded(&a, 2) == QUEUE_C_DONE);
    CHECK(queue_c_bounded(&a, 2) == QUEUE_C_TAKEN && queue_c_unbounded(&a) == QUEUE_C_TAKEN && queue_c_bounded(&a, 0) == QUEUE_C_NO_ROOM);
    CHECK(queue_c_resume(&a, &n) == QUEUE_C_IDLE && n == 9);
    CHECK(queue_c_split(&a, &b) == QUEUE_C_DONE);
    CHECK(queue_c_split(&a, &b) == QUEUE_C_TAKEN && queue_c_split(&c, &b) == QUEUE_C_TAKEN);
    CHECK(queue_c_finish(&a, &n) == QUEUE_C_SHARED && n == 9);
    CHECK(queue_c_push(&a, 1) == QUEUE_C_DONE);
    CHECK(queue_c_drop(&b) == QUEUE_C_DONE && queue_c_drop(&b) == QUEUE_C_NO_PARTY);
    CHECK(queue_c_finish(&a, &n) == QUEUE_C_LOST && n == 9);
    CHECK(queue_c_drop(&a) == QUEUE_C_NO_PARTY);
    CHECK(queue_c_split(&a, &c) == QUEUE_C_NO_PARTY);
}

struct job {
    queue_c_party party;
    uint64_t first, each, total;
    unsigned char *seen; /* how often this thread popped each number */
    uint64_t next[PUSHERS]; /* of each pusher: the lowest number that may come */
    uint64_t popped, pending, busy, out_of_order;
};

/* Waits by hand, and asks for another call while one is pending. */
static uint32_t wait_counted(struct job *job, uint32_t answer, uint64_t *value) {
    while (answer == QUEUE_C_PENDING) {
        uint64_t none = 0;
        job->pending++;
        job->busy += queue_c_push(&job->party, 0) == QUEUE_C_BUSY && queue_c_pop(&job->party, &none) == QUEUE_C_BUSY
            && queue_c_is_full(&job->party) == QUEUE_C_BUSY && queue_c_finish(&job->party, &none) == QUEUE_C_BUSY;
        sched_yield();
        answer = queue_c_resume(&job->party, value);
    }
    return answer;
}

static void *pushes(void *it) {
    struct job *job = it;
    for (uint64_t i = 0; i < job->each; i++) {
        uint64_t none = 0;
        uint32_t answer;
        while ((answer = wait_counted(job, queue_c_push(&job->party, job->first + i), &none)) == QUEUE_C_FULL) sched_yield();
        if (answer != QUEUE_C_DONE) return job;
    }
    return 0;
}

static void *pops(void *it) {
    struct job *job = it;
    for (;;) {
        uint64_t value = UINT64_MAX;
        uint32_t answer = wait_counted(job, queue_c_pop(&job->party, &value), &value);
        if (answer == QUEUE_C_EMPTY) { sched_yield(); continue; }
        if (answer != QUEUE_C_DONE) return answer == QUEUE_C_CLOSED ? 0 : job;
        if (value >= job->total) return job;
        uint64_t *next = &job->next[value / job->each];
        job->popped++;
        job->seen[value]++;
        job->out_of_order += value < *next;
        *next = value + 1;
    }
}

static void threads(size_t cap, uint64_t each) {
    struct job jobs[PUSHERS + POPPERS];
    pthread_t ids[PUSHERS + POPPERS];
    queue_c_party mine = QUEUE_C_NONE;
    uint64_t total = each * PUSHERS, popped = 0, lost = 0, twice = 0, out_of_order = 0, pending = 0, busy = 0, x = 0;
    memset(jobs, 0, sizeof jobs);
    CHECK((cap ? queue_c_bounded(&mine, cap) : queue_c_unbounded(&mine)) == QUEUE_C_DONE);
    for (int i = 0; i < PUSHERS + POPPERS; i++) {
        CHECK(queue_c_split(&mine, &jobs[i].party) == QUEUE_C_DONE);
        jobs[i].first = each * (uint64_t)i;
        jobs[i].each = each;
        jobs[i].total = total;
        if (i >= PUSHERS && !(jobs[i].seen = calloc(total, 1))) abort();
    }
    for (int i = 0; i < PUSHERS + POPPERS; i++)
        if (pthread_create(&ids[i], 0, i < PUSHERS ? pushes : pops, &jobs[i])) abort();
    for (int i = 0; i < PUSHERS + POPPERS; i++) {
        void *wrong;
        if (i == PUSHERS) CHECK(queue_c_close(&mine) == QUEUE_C_YES);
        pthread_join(ids[i], &wrong);
        CHECK(!wrong);
    }
    for (uint64_t v = 0; v < total; v++) {
        int times = 0;
        for (int i = PUSHERS; i < PUSHERS + POPPERS; i++) times += jobs[i].seen[v];
        lost += times == 0;
        twice += times > 1;
    }
    for (int i = 0; i < PUSHERS + POPPERS; i++) {
        popped += jobs[i].popped;
        out_of_order += jobs[i].out_of_order;
        pending += jobs[i].pending;
        busy += jobs[i].busy;
        free(jobs[i].seen);
        CHECK(queue_c_drop(&jobs[i].party) == QUEUE_C_DONE);
    }
    CHECK(pop(&mine, &x) == QUEUE_C_CLOSED && push(&mine, 1) == QUEUE_C_CLOSED);
    CHECK(queue_c_drop(&mine) == QUEUE_C_DONE);
    CHECK(popped == total && lost == 0 && twice == 0 && out_of_order == 0 && busy == pending);
    printf("capacity %zu, %d and %d threads: %llu pushed, %llu popped, %llu lost, %llu twice, %llu out of order; %llu pending\n", cap, PUSHERS, POPPERS,
        (unsigned long long)total, (unsigned long long)popped, (unsigned long long)lost, (unsigned long long)twice, (unsigned long long)out_of_order,
        (unsigned long long)pending);
}

int main(int argc, char **argv) {
    uint64_t each = argc > 1 ? strtoull(argv[1], 0, 10) : 20000;
    each_call_of_a_bounded_queue();
    one_slot();
    many_blocks();
    a_handle_without_a_party();
    wrong_use_that_is_checked();
    threads(1, each / 4);
    threads(3, each);
    threads(1024, each);
    threads(0, each);
    printf("%d failed\n", failed);
    return failed != 0;
}
