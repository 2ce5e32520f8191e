// oneTBB's concurrent_queue, which has no capacity, with its unsafe_size.
#include <oneapi/tbb/concurrent_queue.h>

struct Queue : tbb::concurrent_queue<uint64_t> {
    explicit Queue(size_t) {}
};

std::vector<Call> calls_of(Queue &queue, unsigned)
{
    Call push{"push", [&](uint64_t value) { return queue.push(value), Reply{"ok"}; }};
    Call pop{"pop", [&](uint64_t value) { return queue.try_pop(value) ? Reply{"item", true, value} : Reply{"empty"}; }};
    Call len{"len", [&](uint64_t) { return Reply{"", true, uint64_t(queue.unsafe_size())}; }};
    return {push, pop, push, pop, len};
}
