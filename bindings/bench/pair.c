/* Pushes and pops in turn: pair CAPACITY COUNT. Capacity 0 is none. For `instructions`. */
#include "queue_c.h"
#include <stdlib.h>

int main(int argc, char **argv) {
    if (argc != 3) return 2;
    const size_t cap = strtoul(argv[1], NULL, 10);
    const uint64_t count = strtoull(argv[2], NULL, 10);
    queue_c_party party = QUEUE_C_NONE;
    uint64_t value = 0, sum = 0;
    if ((cap ? queue_c_bounded(&party, cap) : queue_c_unbounded(&party)) != QUEUE_C_DONE) return 1;
    for (uint64_t i = 0; i < count; i++) {
        queue_c_wait(&party, queue_c_push(&party, i), &value);
        queue_c_wait(&party, queue_c_pop(&party, &value), &value);
        sum += value;
    }
    queue_c_drop(&party);
    return sum != count * (count - 1) / 2;
}
