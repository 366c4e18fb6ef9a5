// A sender and three handlers, a thread each: the second and the third follow the first.
#include "disruptor.hpp"
#include <algorithm>
#include <cstdio>
#include <thread>

int main() {
    constexpr std::uint64_t events = 1000000, claim = 10;
    try {
        (void)disruptor::open(1000, {0});
    } catch (const disruptor::refusal &refusal) {
        std::printf("a ring of 1000 slots: %s\n", refusal.what());
    }
    disruptor::ring ring = disruptor::open(1024, {0, 1, 1});
    struct sum {
        alignas(128) std::uint64_t value = 0;
    };
    std::vector<sum> sums(ring.receivers.size());
    std::vector<std::thread> threads;
    for (std::size_t h = 0; h < sums.size(); h++) {
        // (each receiver moves to its thread)
        threads.emplace_back([receiver = std::move(ring.receivers[h]), &own = sums[h]]() mutable {
            receiver.run(1024, [&](const disruptor::event &event, std::uint64_t, bool) { own.value += event.first; });
        });
    }
    disruptor::waiting waiting = ring.sender.waits(1024);
    for (std::uint64_t sent = 0; sent < events; sent += claim) {
        const std::uint64_t lo = ring.sender.claim(claim, waiting);
        for (std::uint64_t k = 0; k < claim; k++) ring.sender.write(lo + k, {sent + k, 0});
        ring.sender.publish(lo, lo + claim - 1);
    }
    ring.sender.close();
    for (std::thread &thread : threads) thread.join();
    const bool sent = ring.sender.progress().done == events;
    const bool right = sent && std::all_of(sums.begin(), sums.end(), [](const sum &own) { return own.value == events * (events - 1) / 2; });
    std::puts(right ? "each handler had every event" : "WRONG");
    return !right;
}
