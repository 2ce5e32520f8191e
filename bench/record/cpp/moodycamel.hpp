// moodycamel::ConcurrentQueue, which has no capacity. Where ONE_PRODUCER is defined, party 0 alone pushes, and the others pop.
#include <concurrentqueue/concurrentqueue.h>

struct Queue : moodycamel::ConcurrentQueue<uint64_t> {
    explicit Queue(size_t) {}
};

std::vector<Call> calls_of(Queue &queue, unsigned party)
{
    Call push{"push", [&](uint64_t value) { return queue.enqueue(value), Reply{"ok"}; }};
    Call pop{"pop", [&](uint64_t value) { return queue.try_dequeue(value) ? Reply{"item", true, value} : Reply{"empty"}; }};
#ifdef ONE_PRODUCER
    return {party == 0 ? push : pop};
#else
    return {push, pop};
#endif
}
