/* A wrong library: a party that is dropped keeps its memory. */
#include "queue_c.h"

uint32_t queue_c_drop(queue_c_party *party) {
    const queue_c_party none = QUEUE_C_NONE;
    uint64_t cap = 0;
    if (queue_c_capacity(party, &cap) == QUEUE_C_NO_PARTY) return QUEUE_C_NO_PARTY;
    *party = none;
    return QUEUE_C_DONE;
}
