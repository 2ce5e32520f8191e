// A queue under a mutex. Where WRONG is defined, its pop looks at the front under the mutex, and takes it off under the mutex once more.
#include <mutex>
#include <queue>

class Queue {
    std::mutex lock;
    std::queue<uint64_t> items;
    const size_t capacity;

public:
    explicit Queue(size_t capacity) : capacity(capacity) {}

    Reply push(uint64_t value)
    {
        std::lock_guard held(lock);
        if (items.size() == capacity) return {"full", true, value};
        items.push(value);
        return {"ok"};
    }

    Reply pop()
    {
        std::unique_lock held(lock);
        if (items.empty()) return {"empty"};
        Reply reply{"item", true, items.front()};
#ifdef WRONG
        held.unlock();
        held.lock();
#endif
        if (!items.empty()) items.pop();
        return reply;
    }
};

std::vector<Call> calls_of(Queue &queue, unsigned)
{
    return {{"push", [&](uint64_t value) { return queue.push(value); }}, {"pop", [&](uint64_t) { return queue.pop(); }}};
}
