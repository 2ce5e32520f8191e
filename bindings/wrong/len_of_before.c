/* A wrong library: len answers what it answered the call before, one time of 100. */
#include "queue_c.h"
#include <stdatomic.h>

static _Atomic uint64_t calls, before;

uint32_t right_queue_c_len(queue_c_party *party, uint64_t *len);

uint32_t queue_c_len(queue_c_party *party, uint64_t *len) {
    uint32_t answer = queue_c_wait(party, right_queue_c_len(party, len), len);
    uint64_t now = *len;
    if (calls++ % 100 == 99) *len = before;
    before = now;
    return answer;
}
