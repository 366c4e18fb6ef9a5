// A feed and two handlers, a thread each, over a ring of bytes: an order goes to a journal, and then to a matching engine.
#include "disruptor.hpp"
#include <algorithm>
#include <cstdio>
#include <thread>

struct order {
    std::uint64_t number, account;
    std::uint32_t price, quantity;
    char symbol[8];
};

int main() {
    constexpr std::uint64_t orders = 1000000, claim = 10;
    disruptor::ring_of<order> ring = disruptor::open_of<order>(1024, {0, 1});
    struct sum {
        alignas(128) std::uint64_t value = 0;
    };
    std::vector<sum> sums(ring.receivers.size());
    std::vector<std::thread> threads;
    for (std::size_t h = 0; h < sums.size(); h++) {
        threads.emplace_back([receiver = std::move(ring.receivers[h]), &own = sums[h]]() mutable {
            receiver.run(1024, [&](const order &order, std::uint64_t sequence, bool) {
                if (order.number == sequence && order.symbol[5] == 'E') own.value += order.number;
            });
        });
    }
    disruptor::waiting waiting = ring.sender.waits(1024);
    for (std::uint64_t sent = 0; sent < orders; sent += claim) {
        const std::uint64_t lo = ring.sender.claim(claim, waiting);
        for (std::uint64_t k = 0; k < claim; k++) ring.sender.write(lo + k, {sent + k, 7, 100, 1, "RATTLE"});
        ring.sender.publish(lo, lo + claim - 1);
    }
    ring.sender.close();
    for (std::thread &thread : threads) thread.join();
    const bool right = std::all_of(sums.begin(), sums.end(), [](const sum &own) { return own.value == orders * (orders - 1) / 2; });
    std::puts(right ? "each handler had every order, whole" : "WRONG");
    return !right;
}
