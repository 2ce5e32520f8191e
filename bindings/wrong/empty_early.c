/* A wrong library: one pop of 500 on an open queue finds it empty. */
#include "queue_c.h"
#include <stdatomic.h>

static _Atomic uint64_t pops;

uint32_t right_queue_c_pop(queue_c_party *party, uint64_t *value);

uint32_t queue_c_pop(queue_c_party *party, uint64_t *value) {
    if (pops++ % 500 == 499 && queue_c_is_closed(party) == QUEUE_C_DONE) return QUEUE_C_EMPTY;
    return right_queue_c_pop(party, value);
}
