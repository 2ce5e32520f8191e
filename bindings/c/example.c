/* One thread pushes numbers, this one adds them up. */
#include "queue_c.h"
#include <pthread.h>
#include <stdio.h>

static void *pushes(void *it) {
    queue_c_party *mine = it;
    uint64_t none = 0;
    for (uint64_t number = 1; number <= 100; number++)
        while (queue_c_wait(mine, queue_c_push(mine, number), &none) == QUEUE_C_FULL) sched_yield();
    queue_c_close(mine);
    return NULL;
}

int main(void) {
    queue_c_party mine = QUEUE_C_NONE, theirs = QUEUE_C_NONE;
    uint64_t number = 0, sum = 0;
    uint32_t answer;
    pthread_t thread;
    if (queue_c_bounded(&mine, 4) != QUEUE_C_DONE || queue_c_split(&mine, &theirs) != QUEUE_C_DONE) return 1;
    if (pthread_create(&thread, NULL, pushes, &theirs)) return 1;
    while ((answer = queue_c_wait(&mine, queue_c_pop(&mine, &number), &number)) != QUEUE_C_CLOSED) {
        if (answer == QUEUE_C_DONE) sum += number;
        else sched_yield();
    }
    pthread_join(thread, NULL);
    queue_c_drop(&theirs);
    queue_c_drop(&mine);
    printf("%llu\n", (unsigned long long)sum);
    return sum != 5050;
}
