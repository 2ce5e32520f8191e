// The library from C++: a party that is dropped with its owner, and a thread that pops what another one pushes.
#include "queue_c.h"
#include <cstdio>
#include <cstdlib>
#include <thread>

namespace {

class Party {
public:
    Party() = default;
    Party(const Party &) = delete;
    Party &operator=(const Party &) = delete;
    ~Party() { queue_c_drop(&party_); }

    bool open(std::size_t cap) { return queue_c_bounded(&party_, cap) == QUEUE_C_DONE; }
    bool split_to(Party &other) { return queue_c_split(&party_, &other.party_) == QUEUE_C_DONE; }
    bool push(std::uint64_t value) {
        std::uint64_t none = 0;
        return queue_c_wait(&party_, queue_c_push(&party_, value), &none) == QUEUE_C_DONE;
    }
    bool pop(std::uint64_t &value) { return queue_c_wait(&party_, queue_c_pop(&party_, &value), &value) == QUEUE_C_DONE; }

private:
    queue_c_party party_ = QUEUE_C_NONE;
};

}

int main(int argc, char **argv) {
    const std::uint64_t count = argc > 1 ? std::strtoull(argv[1], nullptr, 10) : 100000;
    Party mine, theirs;
    if (!mine.open(8) || !mine.split_to(theirs)) return 1;
    std::uint64_t sum = 0;
    std::thread popper([&theirs, &sum, count] {
        for (std::uint64_t popped = 0; popped < count;) {
            std::uint64_t value = 0;
            if (theirs.pop(value)) {
                sum += value;
                popped++;
            } else {
                std::this_thread::yield();
            }
        }
    });
    for (std::uint64_t pushed = 0; pushed < count;) {
        if (mine.push(pushed)) pushed++;
        else std::this_thread::yield();
    }
    popper.join();
    std::printf("%llu came\n", static_cast<unsigned long long>(count));
    return sum != count * (count - 1) / 2;
}
