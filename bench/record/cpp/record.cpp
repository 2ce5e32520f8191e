// Records small histories of threads on a queue, a new queue for each: record CAPACITY [HISTORIES]. QUEUE is a file that has what a queue of yours needs:
// a class Queue, and the calls that a party makes, as mutex.hpp.
#include <atomic>
#include <cstdint>
#include <functional>
#include <iostream>
#include <random>
#include <string>
#include <thread>
#include <vector>

struct Reply { const char *word; bool has_value = false; uint64_t value = 0; };     // {"item", true, 7}, {"empty"}; {"", true, 2} of a len
struct Call { const char *name; std::function<Reply(uint64_t)> make; };
#include QUEUE

constexpr unsigned THREADS = 3, CALLS = 8;

std::vector<std::string> record(Queue &queue, uint64_t seed)
{
    std::atomic<unsigned> clock{0}, arrived{0};
    std::vector<std::string> lines(2 * THREADS * CALLS);
    auto run = [&](unsigned party) {
        std::minstd_rand random(seed * THREADS + party + 1);
        std::vector<Call> calls = calls_of(queue, party);
        arrived++;
        for (unsigned spins = 0; arrived < THREADS; spins++)
            if (spins > 1000) std::this_thread::yield();
        for (unsigned at = 0; at < CALLS; at++) {
            const Call &call = calls[random() % calls.size()];
            uint64_t value = 100 * (party + 1) + at;
            for (unsigned pause = random() % 64; pause > 0; pause--) std::atomic_signal_fence(std::memory_order_seq_cst);
            unsigned begin = clock++;
            Reply reply = call.make(value);
            unsigned end = clock++;
            std::string name = call.name, word = reply.word, number = reply.has_value ? std::to_string(reply.value) : "";
            lines[begin] = std::to_string(party) + " " + (name == "push" ? name + " " + std::to_string(value) : name);
            lines[end] = std::to_string(party) + " = " + word + (word.empty() || number.empty() ? "" : " ") + number;
        }
    };
    std::vector<std::thread> threads;
    for (unsigned party = 0; party < THREADS; party++) threads.emplace_back(run, party);
    for (auto &thread : threads) thread.join();
    return lines;
}

int main(int count, char **words)
{
    uint64_t capacity = std::stoull(words[1]), histories = count > 2 ? std::stoull(words[2]) : 2000;
    for (uint64_t seed = 0; seed < histories; seed++) {
        Queue queue(capacity);
        for (auto &line : record(queue, seed)) std::cout << line << '\n';
        std::cout << '\n';
    }
}
