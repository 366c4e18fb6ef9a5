// Three senders, a thread each, and two handlers by their names: the second one sees what the first one wrote into each event.
#include "disruptor_slots.hpp"
#include <cstdio>
#include <thread>

struct event {
    std::uint64_t number = 0, square = 0;
};

int main() {
    constexpr std::uint64_t senders = 3, events = 100000, claim = 10;
    std::uint64_t sum = 0;
    disruptor::builder<event> graph(1024);
    graph.handle_mut("squares", [](event &it, std::uint64_t, bool) { it.square = it.number * it.number; })
        .after({"squares"})
        .handle("sum", [&](const event &it, std::uint64_t, bool) { sum += it.square; });
    disruptor::running_of_several<event> ring = graph.start_several(senders);
    std::vector<std::thread> threads;
    for (disruptor::sender_in_place<event> &it : ring.senders) {
        // (each sender moves to its thread, and goes away with it)
        threads.emplace_back([sender = std::move(it)]() mutable {
            try {
                for (std::uint64_t sent = 0; sent < events; sent += claim) {
                    std::uint64_t number = sent;
                    sender.publish_batch(claim, [&](event &it, std::uint64_t) { it.number = number++; });
                }
            } catch (const disruptor::handler_failed &) {
                // (finish throws it too)
            }
        });
    }
    for (std::thread &thread : threads) thread.join();
    ring.finish();
    std::uint64_t of_one = 0;
    for (std::uint64_t number = 0; number < events; number++) of_one += number * number;
    std::puts(sum == senders * of_one ? "each handler had every event" : "WRONG");
    return sum != senders * of_one;
}
