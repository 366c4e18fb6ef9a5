// What the headers refuse in a sentence of their own: a program for each number of WRONG, and a right one for 0.
#include <disruptor_slots.hpp>
#if WRONG == 6
#include <disruptor_threads.h>
#endif

int main() {
    disruptor::builder<int> graph(4);
#if WRONG == 1
    graph.handle("one", [](int &, std::uint64_t, bool) {});
#elif WRONG == 2
    graph.handle_mut("one", [](int &, std::uint64_t) {});
#else
    graph.handle("one", [](const int &, std::uint64_t, bool) {});
#endif
    auto ring = graph.start();
#if WRONG == 3
    ring.publish([](int &, std::uint64_t) {});
#elif WRONG == 4
    ring.publish_batch(2, [](int *, int) {});
#elif WRONG == 5
    (void)ring.try_publish_batch_for(std::chrono::seconds(1), 2, [](int &) {});
#else
    ring.publish([](int &event) { event = 1; });
    (void)ring.try_publish_batch_for(std::chrono::seconds(1), 2, [](int &event, std::uint64_t) { event = 1; });
#endif
}
