// What no type says of a ring of slots in C++.
#ifndef OVER_THE_LIBRARY
// (over a library that is instrumented itself the sanitizer of threads is told nothing, and so sees more)
#define DISRUPTOR_TELLS_SANITIZER 0
#endif
#include <cstdio>
#include <cstdlib>
#include <disruptor_slots.hpp>
#include <unistd.h>

namespace {

void expect(bool holds, const char *what, int line) {
    if (holds) return;
    std::printf("line %d: not so: %s\n", line, what);
    std::exit(1);
}
#define EXPECT(fact) expect(fact, #fact, __LINE__)

template <typename Call>
std::uint32_t refused(Call &&call) {
    try {
        call();
    } catch (const disruptor::refusal &refusal) {
        return refusal.number();
    }
    return DISRUPTOR_OK;
}

template <typename Fault, typename Call>
std::string thrown(Call &&call) {
    try {
        call();
    } catch (const Fault &fault) {
        return fault.what();
    }
    return "nothing";
}

using numbers = std::vector<std::uint64_t>;

void fill(std::uint64_t &event, std::uint64_t sequence) { event = sequence; }
void fill_nothing(const std::uint64_t &, std::uint64_t, bool) {}

void a_full_ring_has_no_room() {
    auto ring = disruptor::open_in_place<std::uint64_t>(4, {0});
    EXPECT(ring.sender.try_publish_batch(3, fill));
    EXPECT(!ring.sender.try_publish_batch(2, fill));
    EXPECT(refused([&] { (void)ring.sender.try_publish_batch(5, fill); }) == DISRUPTOR_BAD_COUNT);
    numbers seen;
    const auto see = [&](const std::uint64_t &event, std::uint64_t sequence, bool is_last) {
        seen.push_back(event);
        EXPECT(event == sequence && is_last == (seen.size() == 2 || seen.size() == 6));
    };
    EXPECT(ring.receivers[0].receive(2, see).count == 2);
    // (the claim goes round the end of the slots)
    EXPECT(ring.sender.try_publish_batch(3, fill));
    EXPECT(ring.receivers[0].receive(9, see).count == 4);
    EXPECT((seen == numbers{0, 1, 2, 3, 4, 5}));
    EXPECT(ring.sender.progress().done == 6 && ring.receivers[0].progress().done == 6);
    ring.sender.close();
    EXPECT(ring.receivers[0].receive(1, see).kind == DISRUPTOR_DRAINED);
    EXPECT(refused([&] { ring.sender.publish([](std::uint64_t &) {}); }) == DISRUPTOR_HALTED);
}

// Takes turns with a handler that throws at the event 3, in a ring of any kind, and then without one.
template <typename Run>
void goes_on(Run &&run) {
    numbers seen;
    const auto handle = [&](std::uint64_t event, std::uint64_t sequence, bool) {
        EXPECT(event == sequence);
        if (event == 3) throw std::runtime_error("the fourth event");
        seen.push_back(event);
    };
    EXPECT(thrown<std::runtime_error>([&] { run(handle); }) == "the fourth event");
    run(handle);
    EXPECT((seen == numbers{0, 1, 2, 4, 5, 6, 7, 8, 9}));
}

void a_batch_goes_on_after_the_event_at_which_a_handler_threw() {
    auto in_place = disruptor::open_in_place<std::uint64_t>(16, {0});
    in_place.sender.publish_batch(10, fill);
    in_place.sender.close();
    goes_on([&](auto &handle) { in_place.receivers[0].run(handle); });
    auto words = disruptor::open(16, {0});
    disruptor::waiting how = words.sender.waits(16);
    EXPECT(words.sender.claim(10, how) == 0);
    for (std::uint64_t k = 0; k < 10; k++) words.sender.write(k, {k, 0});
    words.sender.publish(0, 9);
    words.sender.close();
    goes_on([&](auto &handle) {
        words.receivers[0].run(16, [&](const disruptor::event &it, std::uint64_t s, bool is_last) { handle(it.first, s, is_last); });
    });
    EXPECT(words.receivers[0].progress().done == 10);
    auto bytes = disruptor::open_of<std::uint64_t>(16, {0});
    EXPECT(bytes.sender.claim(10, how) == 0);
    for (std::uint64_t k = 0; k < 10; k++) bytes.sender.write(k, k);
    bytes.sender.publish(0, 9);
    bytes.sender.close();
    goes_on([&](auto &handle) { bytes.receivers[0].run(16, handle); });
}

void what_is_left_comes_by_the_room_too() {
    auto ring = disruptor::open_in_place<std::uint64_t>(16, {0});
    auto &receiver = ring.receivers[0];
    ring.sender.publish_batch(10, fill);
    const auto throws = [](std::uint64_t event, std::uint64_t, bool) {
        if (event == 2) throw std::runtime_error("the third event");
    };
    EXPECT(thrown<std::runtime_error>([&] { receiver.receive(10, throws); }) == "the third event");
    EXPECT(refused([&] { receiver.receive(0, fill_nothing); }) == DISRUPTOR_BAD_COUNT && receiver.progress().done == 2);
    numbers seen;
    const auto see = [&](std::uint64_t event, std::uint64_t, bool is_last) {
        seen.push_back(event);
        EXPECT(is_last == (event == 4 || event == 9));
    };
    const disruptor::offer some = receiver.receive(2, see);
    EXPECT(some.first == 3 && some.count == 2 && some.end == 0 && receiver.progress().done == 5);
    EXPECT(refused([&] { receiver.receive(0, see); }) == DISRUPTOR_BAD_COUNT);
    auto moved = std::move(receiver);
    const disruptor::offer rest = moved.receive(16, see);
    EXPECT(rest.first == 5 && rest.count == 5 && rest.end == 1);
    EXPECT((seen == numbers{3, 4, 5, 6, 7, 8, 9}));
}

void a_handler_that_receives_by_its_own_end_is_refused() {
    auto ring = disruptor::open_in_place<std::uint64_t>(4, {0});
    auto &receiver = ring.receivers[0];
    ring.sender.publish_batch(3, fill);
    numbers seen;
    const auto receives = [&](std::uint64_t event, std::uint64_t sequence, bool) {
        EXPECT(event == sequence && sequence < 3);
        seen.push_back(event);
        if (event == 0) (void)receiver.receive(4, fill_nothing);
    };
    EXPECT(thrown<std::logic_error>([&] { receiver.receive(4, receives); }) == "a handler receives by its own end");
    // (that handler failed at its event)
    EXPECT(receiver.receive(4, receives).count == 2);
    EXPECT((seen == numbers{0, 1, 2}));
}

// A run is its own sender for good: it ends by closing it.
template <typename Run>
constexpr bool gives_its_sender_away = std::is_convertible<Run &, disruptor::sender_in_place<int> &>::value
                                       || std::is_constructible<disruptor::sender_in_place<int>, Run>::value;
static_assert(!gives_its_sender_away<disruptor::running<int>>, "else its end waits for ever");

void a_run_that_its_own_filler_moves_away_ends() {
    std::size_t seen = 0;
    disruptor::builder<std::uint64_t> graph(4);
    graph.handle("counts", [&](std::uint64_t, std::uint64_t, bool) { seen++; });
    disruptor::running<std::uint64_t> run = graph.start();
    run.publish([](std::uint64_t &event) { event = 0; });
    EXPECT(refused([&] { run.publish([&](std::uint64_t &) { const auto gone = std::move(run); }); }) == DISRUPTOR_NOT_OPEN);
    EXPECT(seen == 1);
}

void a_filler_that_throws_leaves_the_ring_in_order() {
    auto ring = disruptor::open_in_place<std::uint64_t>(4, {0});
    EXPECT(thrown<std::runtime_error>([&] { ring.sender.publish([](std::uint64_t &) { throw std::runtime_error("unfilled"); }); }) == "unfilled");
    ring.sender.publish([](std::uint64_t &event) { event = 6; });
    numbers seen;
    ring.receivers[0].receive(4, [&](std::uint64_t event, std::uint64_t, bool) { seen.push_back(event); });
    EXPECT((seen == numbers{0, 6}));
}

void a_receiver_that_goes_away_halts_the_ring() {
    auto ring = disruptor::open_in_place<std::uint64_t>(4, {0, 1});
    auto second = std::move(ring.receivers[1]);
    ring.sender.publish([](std::uint64_t &event) { event = 1; });
    ring.receivers.clear();
    EXPECT(refused([&] { ring.sender.publish([](std::uint64_t &) {}); }) == DISRUPTOR_HALTED);
    EXPECT(thrown<disruptor::broken>([&] { second.run([](std::uint64_t, std::uint64_t, bool) {}); }) != "nothing");
}

void a_sender_that_goes_away_closes_the_ring_or_gives_it_up() {
    const auto nothing = [](auto &&, std::uint64_t, bool) {};
    auto ring = disruptor::open_in_place<std::uint64_t>(4, {0});
    {
        auto sender = std::move(ring.sender);
        sender.publish([](std::uint64_t &event) { event = 1; });
    }
    ring.receivers[0].run(nothing);
    EXPECT(ring.receivers[0].progress().done == 1);
    auto several = disruptor::open_several_in_place<std::uint64_t>(4, {0}, 2);
    several.senders.pop_back();
    EXPECT(several.receivers[0].receive(4, nothing).kind == DISRUPTOR_IDLE);
    several.senders.clear();
    several.receivers[0].run(nothing);
    auto words = disruptor::open(4, {0});
    {
        auto sender = std::move(words.sender);
        EXPECT(sender.try_claim(1) == std::optional<std::uint64_t>(0));
    }
    EXPECT(thrown<disruptor::broken>([&] { words.receivers[0].run(4, nothing); }) != "nothing");
}

void an_end_that_was_moved_from_is_not_open() {
    auto ring = disruptor::open_in_place<std::uint64_t>(4, {0});
    auto receiver = std::move(ring.receivers[0]);
    auto sender = std::move(ring.sender);
    auto halter = std::move(ring.halter);
    EXPECT(refused([&] { ring.receivers[0].receive(4, fill_nothing); }) == DISRUPTOR_NOT_OPEN);
    EXPECT(refused([&] { ring.sender.publish([](std::uint64_t &) {}); }) == DISRUPTOR_NOT_OPEN);
    EXPECT(refused([&] { ring.halter.halt(); }) == DISRUPTOR_NOT_OPEN);
    EXPECT(ring.receivers[0].watched().count() == 0 && ring.sender.watched().count() == 0);
    sender.publish([](std::uint64_t &event) { event = 0; });
    EXPECT(receiver.receive(4, fill_nothing).count == 1);
}

void a_run_that_was_moved_from_is_not_open() {
    disruptor::builder<int> graph(4);
    graph.handle("one", [](const int &, std::uint64_t, bool) {});
    auto one = graph.start();
    auto moved_one = std::move(one);
    EXPECT(refused([&] { one.halt(); }) == DISRUPTOR_NOT_OPEN && refused([&] { one.finish(); }) == DISRUPTOR_NOT_OPEN);
    graph.handle("one", [](const int &, std::uint64_t, bool) {});
    auto several = graph.start_several(2);
    auto moved_several = std::move(several);
    EXPECT(refused([&] { several.halt(); }) == DISRUPTOR_NOT_OPEN && refused([&] { several.finish(); }) == DISRUPTOR_NOT_OPEN);
    moved_several.finish();
}

void a_filler_that_publishes_is_refused() {
    auto ring = disruptor::open_in_place<std::uint64_t>(4, {0});
    EXPECT(refused([&] { ring.sender.publish([&](std::uint64_t &) { ring.sender.publish([](std::uint64_t &) {}); }); })
           == DISRUPTOR_OPEN_CLAIM);
    ring.sender.publish_batch(2, fill);
    ring.sender.close();
    EXPECT(ring.receivers[0].receive(2, fill_nothing).end == 0);
    EXPECT(ring.receivers[0].receive(2, fill_nothing).end == 1);
}

// The first event is handled only once the second one is claimed, and that one is published only once the handler of the first failed.
void who_follows_one_that_fails_has_what_it_completed_and_others_have_all() {
    std::atomic<bool> is_claimed{false};
    numbers follows, counts;
    disruptor::builder<std::uint64_t> graph(4);
    graph.handle("fails", [&](std::uint64_t, std::uint64_t sequence, bool) {
        while (!is_claimed) std::this_thread::yield();
        if (sequence == 1) throw std::runtime_error("the second event");
    });
    graph.handle("counts", [&](std::uint64_t event, std::uint64_t, bool) { counts.push_back(event); });
    graph.after({"fails"}).handle("follows", [&](std::uint64_t event, std::uint64_t, bool) { follows.push_back(event); });
    auto ring = graph.start();
    EXPECT(refused([&] { (void)graph.start(); }) == DISRUPTOR_NO_HANDLERS);
    ring.publish_batch(2, fill);
    ring.publish([&](std::uint64_t &event) {
        is_claimed = true;
        std::this_thread::sleep_for(std::chrono::milliseconds(30));
        event = 2;
    });
    EXPECT(thrown<disruptor::handler_failed>([&] { ring.finish(); }) == "a handler threw: fails: the second event");
    EXPECT((follows == numbers{0} && counts == numbers{0, 1, 2}));
}

// One that it follows fails while the other one is on its way.
void who_follows_two_has_what_both_completed_up_to_the_cut() {
    std::uint64_t slow = 0, followed = 0;
    disruptor::builder<std::uint64_t> graph(1024);
    graph.handle("fails", [](std::uint64_t, std::uint64_t sequence, bool) {
        if (sequence == 500) throw std::runtime_error("the event 500");
    });
    graph.handle("slow", [&](std::uint64_t, std::uint64_t sequence, bool) {
        if (sequence == 100) std::this_thread::sleep_for(std::chrono::milliseconds(100));
        slow++;
    });
    graph.and_then().handle("follows", [&](std::uint64_t, std::uint64_t, bool) { followed++; });
    auto ring = graph.start();
    ring.publish_batch(800, fill);
    EXPECT(thrown<disruptor::handler_failed>([&] { ring.finish(); }) == "a handler threw: fails: the event 500");
    EXPECT(followed == 500 && slow == 800);
}

void graphs_are_refused_by_name() {
    const auto none = [](const int &, std::uint64_t, bool) {};
    const auto changes = [](int &, std::uint64_t, bool) {};
    const auto fault = [](auto &&build) { return thrown<std::invalid_argument>(build); };
    EXPECT(fault([&] { disruptor::builder<int>(4).handle("a", none).after({"b"}); }) == "no handler before has the name b");
    EXPECT(fault([&] { disruptor::builder<int>(4).handle("a", none).handle("a", none); }) == "two handlers have the name a");
    EXPECT(fault([&] { (void)disruptor::builder<int>(4).handle("a", none).handle_mut("b", changes).start(); })
           == "b would change events that another handler reads at the same time");
    EXPECT(refused([&] { (void)disruptor::builder<int>(5).handle("a", none).start(); }) == DISRUPTOR_BAD_SIZE);
    EXPECT(refused([&] { (void)disruptor::builder<int>(4).start(); }) == DISRUPTOR_NO_HANDLERS);
    EXPECT(refused([&] { (void)disruptor::builder<int>(4).handle("a", none).start_several(SIZE_MAX); }) == DISRUPTOR_BAD_PRODUCERS);
}

void a_handler_that_throws_halts_the_ring_and_is_named() {
    std::atomic<std::uint64_t> most{0};
    disruptor::builder<std::uint64_t> graph(4);
    graph.handle("first", [](std::uint64_t event, std::uint64_t, bool) {
        if (event == 10) throw std::runtime_error("too large");
    });
    graph.and_then().handle("second", [&](std::uint64_t event, std::uint64_t, bool) { most = event; });
    auto ring = graph.start();
    const std::uint32_t number = refused([&] {
        for (std::uint64_t k = 0; k < 100; k++) ring.publish([&](std::uint64_t &event) { event = k; });
    });
    EXPECT(number == DISRUPTOR_HALTED);
    // (the refusal says which one)
    EXPECT(thrown<disruptor::handler_failed>([&] { ring.publish([](std::uint64_t &) {}); }) == "a handler threw: first: too large");
    try {
        ring.finish();
        EXPECT(false);
    } catch (const disruptor::handler_failed &failed) {
        EXPECT(failed.name() == "first");
        EXPECT(thrown<std::runtime_error>([&] { std::rethrow_exception(failed.thrown()); }) == "too large");
    }
    // (and once more, each time)
    EXPECT(thrown<disruptor::handler_failed>([&] { ring.finish(); }) == "a handler threw: first: too large");
    EXPECT(most < 10 && ring.completed("first") == std::optional<std::uint64_t>(10));
}

// Both fail, one after the other.
void of_two_handlers_that_throw_the_first_is_named() {
    std::atomic<bool> is_noted{false};
    // (what a handler owns goes away once what it threw is noted)
    std::shared_ptr<void> own(nullptr, [&](void *) { is_noted = true; });
    disruptor::builder<int> graph(4);
    graph.handle("later", [&](const int &, std::uint64_t, bool) {
        while (!is_noted) std::this_thread::yield();
        throw std::runtime_error("later");
    });
    graph.handle("first", [own = std::move(own)](const int &, std::uint64_t, bool) {
        throw 1; // (which says nothing)
    });
    auto ring = graph.start();
    ring.publish([](int &) {});
    for (int times = 0; times < 2; times++)
        EXPECT(thrown<disruptor::handler_failed>([&] { ring.finish(); }) == "a handler threw: first");
}

// By itself, or since another thread cancels it.
void a_handler_whose_thread_ends_halts_the_ring_and_is_named() {
    for (const bool is_cancelled : {false, true}) {
        std::uint64_t followed = 0;
        disruptor::builder<std::uint64_t> graph(4);
        graph.handle("dies", [=](std::uint64_t, std::uint64_t sequence, bool) {
            if (sequence != 3) return;
            if (!is_cancelled) pthread_exit(nullptr);
            pthread_cancel(pthread_self());
            pthread_testcancel();
        });
        graph.and_then().handle("follows", [&](std::uint64_t, std::uint64_t, bool) { followed++; });
        auto ring = graph.start();
        const auto publishes = [&] {
            for (;;) ring.publish_batch(4, fill);
        };
        const std::string said = "a handler threw: dies: it ended its own thread";
        EXPECT(thrown<disruptor::handler_failed>(publishes) == said);
        EXPECT(thrown<disruptor::handler_failed>([&] { ring.finish(); }) == said);
        EXPECT(followed == 3 && ring.completed("dies") == std::optional<std::uint64_t>(3));
    }
}

void several_senders_share_a_ring() {
    std::uint64_t total = 0;
    disruptor::builder<std::uint64_t> graph(64);
    graph.handle_mut("doubles", [](std::uint64_t &event, std::uint64_t, bool) { event *= 2; });
    graph.and_then().handle("adds", [&](std::uint64_t event, std::uint64_t, bool) { total += event; });
    auto ring = graph.start_several(3);
    std::vector<std::thread> threads;
    for (auto &sender : ring.senders)
        threads.emplace_back([&sender] {
            for (std::uint64_t k = 0; k < 1000; k += 4) {
                std::uint64_t next = k;
                sender.publish_batch(4, [&](std::uint64_t &event, std::uint64_t) { event = next++; });
            }
        });
    for (std::thread &thread : threads) thread.join();
    ring.finish();
    EXPECT(total == 3 * 999000);
}

void a_run_of_several_waits_for_the_senders_that_were_moved_out() {
    disruptor::builder<std::uint64_t> graph(8);
    std::uint64_t seen = 0;
    const auto counts = [&](std::uint64_t, std::uint64_t, bool) { seen++; };
    auto ring = graph.handle("counts", counts).start_several(3);
    std::vector<std::thread> threads;
    for (int k = 0; k < 2; k++)
        threads.emplace_back([sender = std::move(ring.senders[k])]() mutable {
            std::this_thread::sleep_for(std::chrono::milliseconds(30));
            for (int sent = 0; sent < 100; sent++) sender.publish([](std::uint64_t &) {});
        });
    ring.finish();
    EXPECT(seen == 200);
    ring.finish();
    for (std::thread &thread : threads) thread.join();
    // (a halt ends it at once, and so does a run that goes away)
    auto halted = graph.handle("counts", counts).start_several(2);
    auto sender = std::move(halted.senders[1]);
    sender.publish([](std::uint64_t &) {});
    halted.halt();
    halted.finish();
    EXPECT(seen == 201 && refused([&] { sender.publish([](std::uint64_t &) {}); }) == DISRUPTOR_HALTED);
    sender = std::move(graph.handle("counts", counts).start_several(2).senders[0]);
    EXPECT(refused([&] { sender.publish([](std::uint64_t &) {}); }) == DISRUPTOR_HALTED);
    // (one that came back is waited for no longer)
    auto lent = graph.handle("counts", counts).start_several(2);
    sender = std::move(lent.senders[0]);
    sender.publish([](std::uint64_t &) {});
    lent.senders[0] = std::move(sender);
    lent.finish();
    EXPECT(seen == 202);
}

void a_handler_may_own_what_cannot_be_copied() {
    std::uint64_t seen = 0;
    disruptor::builder<std::unique_ptr<std::uint64_t>> graph(4);
    using event = std::unique_ptr<std::uint64_t>;
    graph.handle_mut("doubles", [two = std::make_unique<std::uint64_t>(2)](event &it, std::uint64_t, bool) { *it *= *two; })
        .and_then()
        .handle("adds", [sum = std::make_unique<std::uint64_t>(0), &seen](const event &it, std::uint64_t, bool) { seen = *sum += *it; });
    auto ring = graph.start();
    for (std::uint64_t k = 0; k < 10; k++) ring.publish([own = std::make_unique<std::uint64_t>(k)](event &it) mutable { it = std::move(own); });
    ring.finish();
    EXPECT(seen == 90);
}

void a_thread_that_sleeps_is_woken_and_one_that_goes_away_drains() {
    std::uint64_t seen = 0;
    {
        disruptor::builder<int> graph(4);
        graph.handle("slow", [&](const int &, std::uint64_t, bool) { seen++; });
        auto ring = graph.start();
        for (int k = 0; k < 20; k++) {
            std::this_thread::sleep_for(std::chrono::milliseconds(3));
            ring.publish([&](int &event) { event = k; });
        }
    }
    EXPECT(seen == 20);
    disruptor::builder<int> graph(4);
    graph.handle("one", [](const int &, std::uint64_t, bool) {});
    auto ring = graph.start();
    ring.publish([](int &event) { event = 1; });
    ring.finish();
    EXPECT(ring.completed("one") == std::optional<std::uint64_t>(1) && !ring.completed("two"));
}

void a_deadline_ends_a_wait() {
    const auto time = std::chrono::milliseconds(20);
    auto ring = disruptor::open_in_place<std::uint64_t>(4, {0});
    const auto see = [](const std::uint64_t &event, std::uint64_t sequence, bool) { EXPECT(event == sequence); };
    EXPECT(ring.receivers[0].receive_for(time, 4, see).kind == DISRUPTOR_IDLE);
    EXPECT(ring.sender.try_publish_batch_for(time, 4, fill));
    EXPECT(!ring.sender.try_publish_batch_for(time, 1, fill));
    EXPECT(ring.receivers[0].receive_for(time, 4, see).count == 4);
    EXPECT(ring.sender.watched().count() == 4 && ring.receivers[0].watched().count() == 4);
    // (no deadline is so late that it is over)
    EXPECT(ring.sender.try_publish_batch_for(time, 4, fill));
    std::thread thread([&] {
        std::this_thread::sleep_for(time);
        (void)ring.receivers[0].receive(4, see);
    });
    EXPECT(ring.sender.try_publish_batch_for(std::chrono::nanoseconds::max(), 4, fill));
    thread.join();
    EXPECT(ring.receivers[0].receive(4, see).count == 4);
    ring.sender.close();
    EXPECT(ring.receivers[0].receive_for(std::chrono::nanoseconds::max(), 4, see).kind == DISRUPTOR_DRAINED);
}

} // namespace

int main() {
    alarm(100);
    a_deadline_ends_a_wait();
    a_full_ring_has_no_room();
    a_batch_goes_on_after_the_event_at_which_a_handler_threw();
    what_is_left_comes_by_the_room_too();
    a_handler_that_receives_by_its_own_end_is_refused();
    a_run_that_its_own_filler_moves_away_ends();
    a_filler_that_throws_leaves_the_ring_in_order();
    a_receiver_that_goes_away_halts_the_ring();
    a_sender_that_goes_away_closes_the_ring_or_gives_it_up();
    an_end_that_was_moved_from_is_not_open();
    a_run_that_was_moved_from_is_not_open();
    a_filler_that_publishes_is_refused();
    who_follows_one_that_fails_has_what_it_completed_and_others_have_all();
    who_follows_two_has_what_both_completed_up_to_the_cut();
    graphs_are_refused_by_name();
    a_handler_that_throws_halts_the_ring_and_is_named();
    of_two_handlers_that_throw_the_first_is_named();
    a_handler_whose_thread_ends_halts_the_ring_and_is_named();
    several_senders_share_a_ring();
    a_run_of_several_waits_for_the_senders_that_were_moved_out();
    a_handler_may_own_what_cannot_be_copied();
    a_thread_that_sleeps_is_woken_and_one_that_goes_away_drains();
    std::puts("each test passed");
}
