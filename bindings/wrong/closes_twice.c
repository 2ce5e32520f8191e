/* A wrong library: a second close answers YES, one time of 50. Only histories show it. */
#include "queue_c.h"
#include <stdatomic.h>

static _Atomic uint64_t closes;

uint32_t right_queue_c_close(queue_c_party *party);

uint32_t queue_c_close(queue_c_party *party) {
    uint32_t answer = right_queue_c_close(party);
    return answer == QUEUE_C_DONE && closes++ % 50 == 49 ? QUEUE_C_YES : answer;
}
