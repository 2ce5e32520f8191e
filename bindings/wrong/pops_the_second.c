/* A wrong library: one pop of 200 takes the second item, and the first goes to the end. */
#include "queue_c.h"
#include <stdatomic.h>

static _Atomic uint64_t pops;

uint32_t right_queue_c_pop(queue_c_party *party, uint64_t *value);

uint32_t queue_c_pop(queue_c_party *party, uint64_t *value) {
    uint64_t first, none = 0;
    if (pops++ % 200 != 199) return right_queue_c_pop(party, value);
    uint32_t answer = queue_c_wait(party, right_queue_c_pop(party, &first), &first);
    if (answer != QUEUE_C_DONE) return answer;
    answer = queue_c_wait(party, right_queue_c_pop(party, value), value);
    if (answer != QUEUE_C_DONE) {
        *value = first;
        return QUEUE_C_DONE;
    }
    queue_c_wait(party, queue_c_push(party, first), &none);
    return QUEUE_C_DONE;
}
