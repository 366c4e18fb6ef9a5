// How long the ends of a ring wait, and how far any thread may see that they came.
#include <cstdio>
#include <cstdlib>
#include <disruptor_slots.hpp>
#include <unistd.h>

namespace {

void expect(bool holds, const char *what, int line) {
    if (holds) return;
    std::printf("line %d: not so: %s\n", line, what);
    std::exit(1);
}
#define EXPECT(fact) expect(fact, #fact, __LINE__)

template <typename Call>
std::uint32_t refused(Call &&call) {
    try {
        call();
    } catch (const disruptor::refusal &refusal) {
        return refusal.number();
    }
    return DISRUPTOR_OK;
}

constexpr std::chrono::nanoseconds short_time = std::chrono::milliseconds(20), for_ever = std::chrono::nanoseconds::max();

// The events are two words, or bytes.
template <typename Ring, typename Event, typename Poll>
void ends_a_wait(Ring ring, const Event &event, Poll &&poll_for) {
    disruptor::waiting how = ring.sender.waits(4);
    const auto begun = std::chrono::steady_clock::now();
    EXPECT(poll_for(ring.receivers[0], short_time, how).kind == DISRUPTOR_IDLE);
    EXPECT(std::chrono::steady_clock::now() - begun >= short_time);
    const auto send = [&](std::uint64_t at) {
        EXPECT(ring.sender.try_claim_for(short_time, 1, how) == std::optional<std::uint64_t>(at));
        ring.sender.write(at, event);
        ring.sender.publish(at, at);
    };
    send(0);
    EXPECT(poll_for(ring.receivers[0], short_time, how).count == 1);
    ring.receivers[0].complete(1);
    std::thread thread([&] {
        std::this_thread::sleep_for(short_time);
        disruptor::waiting own = ring.sender.waits(4);
        EXPECT(ring.sender.claim(1, own) == 1);
        ring.sender.write(1, event);
        ring.sender.publish(1, 1);
    });
    EXPECT(poll_for(ring.receivers[0], for_ever, how).first == 1);
    thread.join();
    // (one that follows a handler which went away waits no longer)
    auto second = std::move(ring.receivers[1]);
    { const auto gone = std::move(ring.receivers[0]); }
    EXPECT(poll_for(second, for_ever, how).count == 1);
    second.complete(1);
    EXPECT(poll_for(second, for_ever, how).kind == DISRUPTOR_GATING);
}

void a_deadline_ends_a_wait_for_words_and_bytes() {
    disruptor::event found[4];
    ends_a_wait(disruptor::open(4, {0, 1}), disruptor::event{5, 6},
                [&](auto &receiver, std::chrono::nanoseconds time, disruptor::waiting &how) { return receiver.poll_for(time, found, 4, how); });
    EXPECT(found[0].first == 5 && found[0].second == 6);
    ends_a_wait(disruptor::open_of<int>(4, {0, 1}), 7,
                [&](auto &receiver, std::chrono::nanoseconds time, disruptor::waiting &how) { return receiver.poll_for(time, 4, how); });
}

// The ring that it was made for is gone then.
void what_waits_has_its_bell_also_after_a_move() {
    auto ring = std::make_unique<disruptor::ring>(disruptor::open(4, {0}));
    disruptor::waiting how = ring->sender.waits(4);
    disruptor::waiting moved = std::move(how), assigned(4);
    assigned = std::move(moved);
    ring.reset();
    { disruptor::waiting last = std::move(assigned); }
    for (int looks = 0; looks < DISRUPTOR_MOST_LOOKS + 4; looks++) how.wait(), moved.wait(), assigned.wait();
}

void any_thread_asks_how_far_a_ring_is() {
    auto ring = disruptor::open_in_place<int>(4, {0, 1});
    ring.sender.publish_batch(3, [](int &event, std::uint64_t) { event = 1; });
    EXPECT(ring.receivers[0].receive(2, [](int, std::uint64_t, bool) {}).count == 2);
    std::thread([&] {
        EXPECT(ring.halter.cursor() == 3 && ring.halter.completed(0) == 2 && ring.halter.completed(1) == 0);
        EXPECT(refused([&] { (void)ring.halter.completed(2); }) == DISRUPTOR_NO_HANDLER);
    }).join();
    disruptor::builder<int> graph(4);
    const auto none = [](const int &, std::uint64_t, bool) {};
    auto run = graph.handle("none", none).start();
    run.publish([](int &event) { event = 1; });
    std::thread([&] { EXPECT(run.cursor() == 1); }).join();
    run.finish();
    EXPECT(run.cursor() == 1 && run.completed("none") == std::optional<std::uint64_t>(1));
    auto several = graph.handle("none", none).start_several(2);
    for (auto &sender : several.senders) sender.publish([](int &event) { event = 1; });
    std::thread([&] { EXPECT(several.cursor() == 2); }).join();
    const auto moved = std::move(several);
    EXPECT(moved.cursor() == 2 && refused([&] { (void)several.cursor(); }) == DISRUPTOR_NOT_OPEN);
}

} // namespace

int main() {
    alarm(100);
    a_deadline_ends_a_wait_for_words_and_bytes();
    what_waits_has_its_bell_also_after_a_move();
    any_thread_asks_how_far_a_ring_is();
    std::puts("each test passed");
}
