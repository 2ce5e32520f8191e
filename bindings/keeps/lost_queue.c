/* A wrong library: a queue that is lost keeps a block. */
#include "queue_c.h"
#include <stdlib.h>

uint32_t right_queue_c_finish(queue_c_party *party, uint64_t *left);

uint32_t queue_c_finish(queue_c_party *party, uint64_t *left) {
    uint32_t answer = right_queue_c_finish(party, left);
    if (answer == QUEUE_C_LOST) {
        void *volatile kept = malloc(64);
        (void)kept;
    }
    return answer;
}
