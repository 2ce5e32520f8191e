/* A wrong library: a displacement is a pop and then a push, and other calls may come between. */
#include "queue_c.h"

uint32_t queue_c_force_push(queue_c_party *party, uint64_t value, uint64_t *old) {
    uint64_t none = 0;
    for (;;) {
        uint32_t answer = queue_c_wait(party, queue_c_push(party, value), &none);
        if (answer != QUEUE_C_FULL) return answer;
        if (queue_c_wait(party, queue_c_pop(party, old), old) != QUEUE_C_DONE) continue;
        answer = queue_c_wait(party, queue_c_push(party, value), &none);
        if (answer == QUEUE_C_DONE) return QUEUE_C_YES;
        if (answer == QUEUE_C_CLOSED) return answer;
        /* It is full again: the item that was taken is lost. */
    }
}
