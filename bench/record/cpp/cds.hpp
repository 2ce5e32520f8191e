// Queues of libcds: CONTAINER is BasketQueue or SegmentedQueue. LOOKS lets the size be looked at, which a counter beside the queue has.
#include <cds/init.h>
#include <cds/gc/hp.h>
#include <cds/container/basket_queue.h>
#include <cds/container/segmented_queue.h>

struct Library {
    Library() { cds::Initialize(); }
    ~Library() { cds::Terminate(); }
};
struct Thread {
    Thread() { cds::threading::Manager::attachThread(); }
    ~Thread() { cds::threading::Manager::detachThread(); }
};
static Library library;
static cds::gc::HP hazards(64);
static Thread first;

struct Counted : cds::container::basket_queue::traits {
    typedef cds::atomicity::item_counter item_counter;
};
struct Basket : cds::container::BasketQueue<cds::gc::HP, uint64_t, Counted> {
    explicit Basket(size_t) {}
};
struct Segmented : cds::container::SegmentedQueue<cds::gc::HP, uint64_t> {
    explicit Segmented(size_t) : SegmentedQueue(4) {}
};
using Queue = CONTAINER;

std::vector<Call> calls_of(Queue &queue, unsigned)
{
    static thread_local Thread mine;
    Call push{"push", [&](uint64_t value) { return queue.enqueue(value), Reply{"ok"}; }};
    Call pop{"pop", [&](uint64_t value) { return queue.dequeue(value) ? Reply{"item", true, value} : Reply{"empty"}; }};
#ifdef LOOKS
    return {push, pop, push, pop, {"len", [&](uint64_t) { return Reply{"", true, uint64_t(queue.size())}; }}};
#else
    return {push, pop};
#endif
}
