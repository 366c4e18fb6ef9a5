// Events a second over a ring of slots from C++, each end on a thread of its own, measured as bench/c/rates.c does:
//
//   rates TOPOLOGY SIZE SECONDS ROUNDS
//
// Before its name a topology may have bytesN- for events of 16, 64, 256, 1024 or 4096 bytes.
#include <array>
#include <cstdio>
#include <cstdlib>
#include <disruptor_slots.hpp>
#include <map>
#include <numeric>

namespace {

// An event of so many words, the first of which is its number.
template <std::size_t Words>
struct event {
    std::array<std::uint64_t, Words> words{};
    event() = default;
    explicit event(std::uint64_t number) { words[0] = number; }
};

struct order {
    std::size_t senders = 0, bytes = 16;
    std::vector<std::uint64_t> upstreams;
    std::uint64_t claim = 1, size = 0;
    double seconds = 0;
};

template <std::size_t Words>
using ends = disruptor::ring_in_place_of_several<event<Words>>;
using hand = std::chrono::steady_clock;
constexpr std::uint64_t stretch = 65536;

double since(hand::time_point begun) { return std::chrono::duration<double>(hand::now() - begun).count(); }

// The number after a word at the front of a name, which is taken off, or else this.
std::uint64_t numbered(std::string &name, const std::string &word, std::uint64_t otherwise) {
    if (name.compare(0, word.size(), word) != 0) return otherwise;
    const std::uint64_t number = std::stoull(name.substr(word.size()));
    name.erase(0, name.find('-') + 1);
    return number;
}

order read(std::string name) {
    static const std::map<std::string, std::vector<std::uint64_t>> shapes = {
        {"unicast", {0}}, {"pipeline", {0, 1, 2}}, {"multicast", {0, 0, 0}}, {"diamond", {0, 0, 3}}};
    order made;
    made.bytes = numbered(name, "bytes", made.bytes), made.senders = numbered(name, "senders", 0);
    if (const std::size_t dash = name.find("-b"); dash != std::string::npos) {
        made.claim = std::stoull(name.substr(dash + 2));
        name.resize(dash);
    }
    made.upstreams = shapes.at(name);
    return made;
}

template <std::size_t Words>
ends<Words> open(const order &it) {
    if (it.senders) return disruptor::open_several_in_place<event<Words>>(it.size, it.upstreams, it.senders);
    auto ring = disruptor::open_in_place<event<Words>>(it.size, it.upstreams);
    ends<Words> made = {{}, std::move(ring.receivers), std::move(ring.halter)};
    made.senders.push_back(std::move(ring.sender));
    return made;
}

template <std::size_t Words>
std::uint64_t send(disruptor::sender_in_place<event<Words>> &sender, const order &it) {
    const auto begun = hand::now();
    std::uint64_t sent = 0;
    do {
        for (std::uint64_t k = 0; k < stretch / it.claim; k++)
            sender.publish_batch(it.claim, [&](event<Words> &slot, std::uint64_t) { slot = event<Words>(sent++); });
    } while (since(begun) < it.seconds);
    return sent;
}

// One round over a ring of its own, from the first claim until the last handler has had all.
template <std::size_t Words>
double play(const order &it) {
    ends<Words> ring = open<Words>(it);
    std::vector<std::uint64_t> sums(ring.receivers.size()), sent(ring.senders.size());
    std::vector<std::thread> handlers, senders;
    for (std::size_t k = 0; k < sums.size(); k++)
        handlers.emplace_back([&, k] {
            std::uint64_t sum = 0;
            ring.receivers[k].run([&](const event<Words> &slot, std::uint64_t, bool) {
                sum = std::accumulate(slot.words.begin(), slot.words.end(), sum);
            });
            sums[k] = sum;
        });
    const auto begun = hand::now();
    for (std::size_t p = 0; p < sent.size(); p++) senders.emplace_back([&, p] { sent[p] = send<Words>(ring.senders[p], it); });
    for (std::thread &thread : senders) thread.join();
    if (it.senders) ring.halter.halt();
    else ring.senders[0].close();
    for (std::thread &thread : handlers) thread.join();
    const double took = since(begun);
    std::uint64_t events = 0, sum = 0;
    for (const std::uint64_t count : sent) events += count, sum += count * (count - 1) / 2;
    for (const std::uint64_t is : sums)
        if (is != sum) std::fprintf(stderr, "wrong sum\n"), std::exit(5);
    return static_cast<double>(events) / took;
}

double play_by_width(const order &it) {
    switch (it.bytes) {
    case 16: return play<2>(it);
    case 64: return play<8>(it);
    case 256: return play<32>(it);
    case 1024: return play<128>(it);
    case 4096: return play<512>(it);
    default: std::fprintf(stderr, "no events of so many bytes\n"), std::exit(1);
    }
}

} // namespace

int main(int count, char **words) {
    if (count != 5) return std::fprintf(stderr, "usage: rates TOPOLOGY SIZE SECONDS ROUNDS\n"), 1;
    order it = read(words[1]);
    it.size = std::stoull(words[2]), it.seconds = std::stod(words[3]), it.claim = std::min(it.claim, it.size);
    std::vector<double> rates(std::stoul(words[4]));
    for (double &rate : rates) rate = play_by_width(it);
    std::sort(rates.begin(), rates.end());
    std::printf("cpp-slots %s %s %.0f\n", words[1], words[2], rates[rates.size() / 2]);
}
