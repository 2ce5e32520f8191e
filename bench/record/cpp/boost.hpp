// boost::lockfree::queue of a fixed size.
#include <boost/lockfree/queue.hpp>

using Queue = boost::lockfree::queue<uint64_t>;

std::vector<Call> calls_of(Queue &queue, unsigned)
{
    auto push = [&](uint64_t value) { return queue.bounded_push(value) ? Reply{"ok"} : Reply{"full", true, value}; };
    auto pop = [&](uint64_t value) { return queue.pop(value) ? Reply{"item", true, value} : Reply{"empty"}; };
    return {{"push", push}, {"pop", pop}};
}
