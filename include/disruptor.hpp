// The proved ring for C++ (17 or later): the calls of disruptor.h with ends that free themselves. A refusal that a caller
// waits out, as no-room, is answered; each other one is thrown.
#if __cplusplus < 201703L
#error "disruptor needs C++17"
#endif
#ifndef DISRUPTOR_HPP
#define DISRUPTOR_HPP

#include "disruptor.h"
#include <algorithm>
#include <atomic>
#include <chrono>
#include <cstddef>
#include <cstdint>
#include <exception>
#include <memory>
#include <mutex>
#include <optional>
#include <stdexcept>
#include <string>
#include <type_traits>
#include <utility>
#include <vector>

namespace disruptor {

using event = disruptor_event;
using offer = disruptor_offer;
using counts = disruptor_counts;
// What wakes the threads of a ring that sleep; all of its ends have it.
using bell = std::shared_ptr<disruptor_bell>;

// A call was refused.
class refusal : public std::runtime_error {
public:
    explicit refusal(std::uint32_t number) : refusal(number, disruptor_text(number)) {}
    refusal(std::uint32_t number, const std::string &text) : std::runtime_error(text), number_(number) {}
    std::uint32_t number() const noexcept { return number_; }

private:
    std::uint32_t number_;
};

inline void check(std::uint32_t number) {
    if (number != DISRUPTOR_OK) throw refusal(number);
}

// When a time from now on is up: never, where no clock goes so far.
[[nodiscard]] inline std::chrono::steady_clock::time_point end_of(std::chrono::nanoseconds time) noexcept {
    using clock = std::chrono::steady_clock;
    const clock::time_point now = clock::now();
    return time < clock::time_point::max() - now ? now + time : clock::time_point::max();
}

// How a thread waits that looks again and again for what others do: without a bell it never sleeps.
class waiting {
public:
    explicit waiting(std::uint64_t room, disruptor::bell bell = nullptr) noexcept
        : bell_(std::move(bell)), state_(disruptor_waits_by(room, bell_.get())) {}
    // (one that is moved from still has its bell)
    waiting(const waiting &) noexcept = default;
    waiting &operator=(const waiting &) noexcept = default;
    void wait() noexcept { disruptor_wait(&state_); }
    void found(std::uint64_t count) noexcept { disruptor_found(&state_, count); }
    // The same after a claim of so many events.
    void found_room(std::uint64_t count) noexcept { disruptor_found_room(&state_, count); }
    // Waits, if the time is not up, and answers whether it is.
    [[nodiscard]] bool is_over(std::chrono::steady_clock::time_point end) noexcept {
        if (std::chrono::steady_clock::now() >= end) return true;
        wait();
        return false;
    }

private:
    disruptor::bell bell_;
    disruptor_waiting state_;
};

// A handler went away before it had every event: the ring is halted, and those who follow it wait no longer once they had what it
// completed. A sender that went away with an open claim does so to all.
class broken : public std::runtime_error {
public:
    broken() : std::runtime_error("a handler went away before it had every event") {}
};

// The bit of the senders among the ends that went away.
constexpr std::uint64_t a_sender = UINT64_C(1) << 63;

// What all ends of a ring have in common.
class common {
public:
    disruptor_bell *bell() noexcept { return &bell_; }
    disruptor_halter *halter() noexcept { return &halter_; }
    void ring() noexcept { disruptor_ring(&bell_); }
    void halt() {
        const std::lock_guard<std::mutex> lock(mutex_);
        check(disruptor_halt(&halter_));
        ring();
    }
    std::uint64_t cursor() {
        const std::lock_guard<std::mutex> lock(mutex_);
        std::uint64_t count = 0;
        check(disruptor_cursor(&halter_, &count));
        return count;
    }
    std::uint64_t completed(std::size_t handler) {
        const std::lock_guard<std::mutex> lock(mutex_);
        std::uint64_t count = 0;
        check(disruptor_completed_by(&halter_, handler, &count));
        return count;
    }
    // Halts the ring for a handler that goes away after so many events, so that nobody waits for it.
    void give_up(std::size_t handler, std::uint64_t completed) noexcept {
        completed_[handler] = completed;
        leave(UINT64_C(1) << handler);
    }
    // Halts it for good, so that each handler ends once it finds no event.
    void give_up() noexcept { leave(a_sender); }
    // A handler failed, before it goes away: who is refused since the ring is halted is told of the first one.
    void fail(const std::exception_ptr &failed) noexcept {
        const std::lock_guard<std::mutex> lock(mutex_);
        if (!failed_) failed_ = failed;
    }
    [[nodiscard]] std::exception_ptr failed() noexcept {
        const std::lock_guard<std::mutex> lock(mutex_);
        return failed_;
    }
    // Of so many senders one after another goes away. With the last one the ring is halted, since nobody claims any more.
    void has_senders(std::size_t count) noexcept { senders_ = count; }
    void lose_sender() noexcept {
        if (senders_.fetch_sub(1) == 1) leave(0);
    }
    // Where those who follow these are cut: at the least count of those of them that are gone, or at none where all is given up.
    std::uint64_t cut(std::uint64_t upstreams) const noexcept {
        const std::uint64_t gone = gone_ & upstreams;
        std::uint64_t cut = gone & a_sender ? 0 : UINT64_MAX;
        for (std::size_t k = 0; gone >> k && cut; k++)
            if (gone >> k & 1) cut = std::min(cut, completed_[k].load());
        return cut;
    }
    common() = default;
    common(const common &) = delete;
    common &operator=(const common &) = delete;
    ~common() { disruptor_free(&halter_); }

private:
    void leave(std::uint64_t ends) noexcept {
        gone_ |= ends;
        const std::lock_guard<std::mutex> lock(mutex_);
        disruptor_halt(&halter_);
        ring();
    }
    disruptor_bell bell_ = DISRUPTOR_NEW_BELL;
    disruptor_halter halter_ = DISRUPTOR_NEW;
    std::mutex mutex_;
    std::exception_ptr failed_;
    // The ends that went away too early, and of those that are handlers how many events they completed.
    std::atomic<std::uint64_t> gone_{0};
    std::atomic<std::uint64_t> completed_[16] = {};
    std::atomic<std::size_t> senders_{0};
};
using shared = std::shared_ptr<common>;

// How many events an end published or completed, which any thread may ask at any time. It is never ahead of the end.
class watch {
public:
    watch() = default;
    // (one that is moved from still counts)
    watch(const watch &) noexcept = default;
    watch &operator=(const watch &) noexcept = default;
    std::uint64_t count() const noexcept { return line_->count.load(std::memory_order_acquire); }
    // Only its end calls this.
    void set(std::uint64_t count) const noexcept { line_->count.store(count, std::memory_order_release); }

private:
    struct line {
        alignas(128) std::atomic<std::uint64_t> count{0};
    };
    std::shared_ptr<line> line_ = std::make_shared<line>();
};

// A handle that frees what it has, and rings the bell of its ring where it changed what others look at. It may be moved, and one
// that was moved from answers not-open.
template <typename Handle>
class end {
public:
    end() noexcept = default;
    explicit end(disruptor::shared all) noexcept : shared_(std::move(all)) {}
    end(end &&other) noexcept : shared_(std::move(other.shared_)), handle_(std::exchange(other.handle_, Handle DISRUPTOR_NEW)) {}
    end &operator=(end &&other) noexcept {
        if (this != &other) {
            disruptor_free(&handle_);
            shared_ = std::move(other.shared_);
            handle_ = std::exchange(other.handle_, Handle DISRUPTOR_NEW);
        }
        return *this;
    }
    end(const end &) = delete;
    end &operator=(const end &) = delete;
    ~end() { disruptor_free(&handle_); }
    Handle *get() noexcept { return &handle_; }
    // A way to wait that sleeps until an end of this ring rings.
    [[nodiscard]] waiting waits(std::uint64_t room) const noexcept { return waiting(room, bell()); }
    // What a sender of one claimed and published, what a receiver took and completed.
    [[nodiscard]] disruptor::counts progress() {
        disruptor::counts counts = {};
        check(disruptor_progress(&handle_, &counts));
        return counts;
    }

protected:
    void check_and_ring(std::uint32_t number) const {
        check(number);
        if (shared_) shared_->ring();
    }
    disruptor::bell bell() const noexcept {
        return shared_ ? disruptor::bell(shared_, shared_->bell()) : nullptr;
    }
    disruptor::shared shared_;

private:
    Handle handle_ DISRUPTOR_NEW;
};

// An end that claims and publishes. One that goes away closes the ring of one sender, and the last of several halts it; where one leaves a
// claim unpublished, it halts the ring, and the handlers wait no longer.
class sending : public end<disruptor_sender> {
public:
    using end::end;
    sending(sending &&) noexcept = default;
    sending &operator=(sending &&other) noexcept {
        if (this != &other) leave();
        end::operator=(std::move(other));
        open_ = other.open_, counts_as_gone_ = other.counts_as_gone_;
        return *this;
    }
    ~sending() { leave(); }
    // The ring of several senders waits no longer for this one.
    void count_as_gone() noexcept {
        if (shared_ && !std::exchange(counts_as_gone_, true)) shared_->lose_sender();
    }
    void close() { check_and_ring(disruptor_close(get())); }

protected:
    // The first of n sequences, or nothing where there is no room, or another sender came first.
    [[nodiscard]] std::optional<std::uint64_t> try_claim(std::uint64_t n) {
        std::uint64_t lo = 0;
        const std::uint32_t number = disruptor_claim(get(), n, &lo);
        if (number == DISRUPTOR_NO_ROOM || number == DISRUPTOR_CONTENDED) return std::nullopt;
        if (number == DISRUPTOR_HALTED && shared_)
            if (const std::exception_ptr failed = shared_->failed()) std::rethrow_exception(failed);
        check(number);
        open_ += n;
        return lo;
    }
    // Waits for room.
    [[nodiscard]] std::uint64_t claim(std::uint64_t n, waiting &how) {
        for (;;) {
            if (const std::optional<std::uint64_t> lo = try_claim(n)) {
                how.found_room(n);
                return *lo;
            }
            how.wait();
        }
    }
    // The same, or nothing where the time is up. It may take ten milliseconds more, where it sleeps.
    [[nodiscard]] std::optional<std::uint64_t> try_claim_for(std::chrono::nanoseconds time, std::uint64_t n, waiting &how) {
        const auto end = end_of(time);
        for (;;) {
            const std::optional<std::uint64_t> lo = try_claim(n);
            if (lo) how.found_room(n);
            if (lo || how.is_over(end)) return lo;
        }
    }
    // Takes note that so many were published.
    void published(std::uint64_t n) {
        open_ -= n;
        shared_->ring();
    }
    bool has_open_claim() const noexcept { return open_ > 0; }
    void leave() noexcept {
        if (!shared_) return;
        if (has_open_claim()) shared_->give_up();
        else if (disruptor_close(get()) == DISRUPTOR_OK) shared_->ring();
        else count_as_gone();
    }

private:
    // How many sequences are claimed and not published.
    std::uint64_t open_ = 0;
    bool counts_as_gone_ = false;
};

class sender : public sending {
public:
    using sending::sending;
    using sending::claim;
    using sending::try_claim;
    using sending::try_claim_for;
    void write(std::uint64_t sequence, const event &what) { check(disruptor_write(get(), sequence, &what)); }
    void publish(std::uint64_t lo, std::uint64_t hi) {
        check(disruptor_publish(get(), lo, hi));
        published(hi - lo + 1);
    }
};

// The end of a handler, which is shown every event after those that it follows had it. Where the handler throws, the events before
// the one at which it did are completed, and what it threw passes. If it is run again, that one counts as handled, and it goes on
// after it. One that receives by its own end is refused: std::logic_error is thrown in it. A receiver that goes away before it is
// drained halts the ring.
class receiving : public end<disruptor_receiver> {
public:
    using end::end;
    receiving(receiving &&) noexcept = default;
    receiving &operator=(receiving &&other) noexcept {
        if (this != &other) leave();
        end::operator=(std::move(other));
        completed_ = other.completed_;
        place_ = other.place_, upstreams_ = other.upstreams_, is_at_end_ = other.is_at_end_;
        next_ = other.next_, taken_ = other.taken_, has_thrown_ = other.has_thrown_, is_drained_ = other.is_drained_;
        return *this;
    }
    ~receiving() { leave(); }
    void complete(std::uint64_t upto) {
        check(disruptor_complete(get(), upto));
        completed_.set(upto);
        if (shared_) shared_->ring();
    }
    // How many events it completed, for who watches it.
    watch watched() const noexcept { return completed_; }
    // Tells those who are refused since the ring is halted.
    void fail(const std::exception_ptr &failed) noexcept {
        if (shared_) shared_->fail(failed);
    }
    // That it is handler k, and whom it follows.
    void takes_place(std::size_t k, std::uint64_t upstreams) noexcept { place_ = k, upstreams_ = upstreams | a_sender; }

protected:
    // Notes what a poll found.
    offer polled(const offer &found) noexcept {
        is_drained_ = found.kind == DISRUPTOR_DRAINED;
        return found;
    }
    // Shows `handle(at(sequence), sequence, is_last_of_batch)` the next events, `room` at most, and completes them: what a handler that
    // threw left, or else what `poll()` takes.
    template <typename Poll, typename At, typename Handler>
    offer show(std::uint64_t room, Poll &&poll, At &&at, Handler &&handle) {
        if (!shared_) throw refusal(DISRUPTOR_NOT_OPEN);
        if (is_showing_) throw std::logic_error("a handler receives by its own end");
        if (room == 0) throw refusal(DISRUPTOR_BAD_COUNT);
        if (std::exchange(has_thrown_, false)) complete(next_);
        if (next_ == taken_) {
            const offer found = poll();
            if (found.kind != DISRUPTOR_BATCH) return found;
            next_ = found.first, taken_ = found.first + found.count, is_at_end_ = found.end;
        }
        const offer shown = {DISRUPTOR_BATCH, room < taken_ - next_ ? 0 : is_at_end_, next_, std::min(room, taken_ - next_)};
        const std::uint64_t upto = shown.first + shown.count;
        is_showing_ = true;
        try {
            for (; next_ != upto; next_++) handle(at(next_), next_, next_ + 1 == upto);
        } catch (...) {
            is_showing_ = false, has_thrown_ = true;
            complete(next_++);
            throw;
        }
        is_showing_ = false;
        complete(upto);
        return shown;
    }
    // Polls until there are events, or none come any more, or the time is up, or it is at its cut: what it finds then may be none.
    template <typename Poll>
    [[nodiscard]] offer poll_until(std::chrono::steady_clock::time_point end, waiting &how, Poll &&poll) {
        for (;;) {
            const std::uint64_t at = cut();
            const offer found = poll();
            if (found.kind == DISRUPTOR_BATCH) how.found(found.count);
            if (found.kind == DISRUPTOR_BATCH || found.kind == DISRUPTOR_DRAINED || has_come_to(at) || how.is_over(end)) return found;
        }
    }
    // Takes turns until the ring is drained, and sleeps while none comes. It answers false where it came to its cut.
    template <typename Turn>
    [[nodiscard]] bool take_turns(std::uint64_t room, Turn &&turn) {
        waiting how = waits(room);
        for (;;) {
            const std::uint64_t at = cut();
            const offer found = turn();
            if (found.kind == DISRUPTOR_DRAINED) return true;
            if (found.kind == DISRUPTOR_BATCH) {
                how.found(found.count);
                continue;
            }
            if (has_come_to(at)) return false;
            how.wait();
        }
    }
    // After how many events it ends, since one that it follows went away. It asks that before it looks, so that it misses none.
    std::uint64_t cut() const noexcept { return shared_ ? shared_->cut(upstreams_) : UINT64_MAX; }
    bool has_come_to(std::uint64_t cut) const noexcept { return completed_.count() >= cut; }

private:
    void leave() noexcept {
        if (shared_ && !is_drained_) shared_->give_up(place_, completed_.count());
    }
    watch completed_;
    std::size_t place_ = 0;
    std::uint64_t upstreams_ = a_sender;
    // Of the events that are taken the next one to show, and up to where they go.
    std::uint64_t next_ = 0, taken_ = 0;
    std::uint32_t is_at_end_ = 0;
    bool is_showing_ = false, has_thrown_ = false, is_drained_ = false;
};

class receiver : public receiving {
public:
    using receiving::receiving;
    [[nodiscard]] offer poll(event *events, std::size_t room) {
        offer found = {};
        check(disruptor_poll(get(), events, room, &found));
        return polled(found);
    }
    // The same, once there are events: what it finds when the time is up, or at its cut where a handler that it follows went away, may
    // be none. It may take ten milliseconds more, where it sleeps.
    [[nodiscard]] offer poll_for(std::chrono::nanoseconds time, event *events, std::size_t room, waiting &how) {
        return poll_until(end_of(time), how, [&] { return poll(events, room); });
    }
    // Hands each event to `handle(event, sequence, is_last_of_batch)` until the ring is drained, and sleeps while none comes.
    template <typename Handler>
    void run(std::size_t room, Handler &&handle) {
        const auto take = [&] {
            events_.resize(room);
            const offer found = poll(events_.data(), room);
            first_ = found.first;
            return found;
        };
        const auto turn = [&] { return show(room, take, [&](std::uint64_t s) { return events_[s - first_]; }, handle); };
        if (!take_turns(room, turn)) throw broken();
    }

private:
    std::vector<event> events_;
    std::uint64_t first_ = 0;
};

// The ends of a ring of bytes, whose events are values that may be copied as their bytes.
template <typename T>
class sender_of : public sender {
    static_assert(std::is_trivially_copyable<T>::value, "an event is copied as its bytes");

public:
    using sender::sender;
    void write(std::uint64_t sequence, const T &what) { check(disruptor_write_bytes(get(), sequence, &what, sizeof what)); }
};

template <typename T>
class receiver_of : public receiving {
public:
    using receiving::receiving;
    [[nodiscard]] offer poll(std::uint64_t room) {
        offer found = {};
        check(disruptor_poll_bytes(get(), room, &found));
        return polled(found);
    }
    // The same, once there are events: what it finds when the time is up, or at its cut where a handler that it follows went away, may
    // be none. It may take ten milliseconds more, where it sleeps.
    [[nodiscard]] offer poll_for(std::chrono::nanoseconds time, std::uint64_t room, waiting &how) {
        return poll_until(end_of(time), how, [&] { return poll(room); });
    }
    // An event that was taken and not completed.
    [[nodiscard]] T read(std::uint64_t sequence) {
        T what;
        check(disruptor_read_bytes(get(), sequence, &what, sizeof what));
        return what;
    }
    // Hands each event to `handle(event, sequence, is_last_of_batch)` until the ring is drained, and sleeps while none comes.
    template <typename Handler>
    void run(std::uint64_t room, Handler &&handle) {
        const auto take = [&] { return poll(room); };
        if (!take_turns(room, [&] { return show(room, take, [&](std::uint64_t s) { return read(s); }, handle); })) throw broken();
    }
};

// Halts the ring, and tells how far it came, from any thread.
class halter {
public:
    explicit halter(disruptor::shared all) noexcept : shared_(std::move(all)) {}
    void halt() {
        if (!shared_) throw refusal(DISRUPTOR_NOT_OPEN);
        shared_->halt();
    }
    // How many events the sender published, or several claimed. Of one sender of two words this and `completed` are refused, wrong-end:
    // there each end says by `progress` how far it came, on its own thread.
    [[nodiscard]] std::uint64_t cursor() const {
        if (!shared_) throw refusal(DISRUPTOR_NOT_OPEN);
        return shared_->cursor();
    }
    // How many events a handler completed.
    [[nodiscard]] std::uint64_t completed(std::size_t handler) const {
        if (!shared_) throw refusal(DISRUPTOR_NOT_OPEN);
        return shared_->completed(handler);
    }
    // Halts it for good, so that nobody waits any more: each handler ends once it finds no event.
    void give_up() noexcept {
        if (shared_) shared_->give_up();
    }

private:
    disruptor::shared shared_;
};

struct ring {
    disruptor::sender sender;
    std::vector<receiver> receivers;
    disruptor::halter halter;
};

struct ring_of_several {
    std::vector<disruptor::sender> senders;
    std::vector<receiver> receivers;
    disruptor::halter halter;
};

template <typename T>
struct ring_of {
    sender_of<T> sender;
    std::vector<receiver_of<T>> receivers;
    disruptor::halter halter;
};

// Ends of a ring that is not opened yet.
template <typename End, typename... More>
std::vector<End> unopened(std::size_t count, const More &...of) {
    std::vector<End> ends;
    ends.reserve(count);
    while (ends.size() < count) ends.emplace_back(of...);
    return ends;
}

// Moves the handles of a ring to its ends.
template <typename End, typename Handle>
void own(std::vector<End> &ends, const std::vector<Handle> &handles) noexcept {
    for (std::size_t k = 0; k < handles.size(); k++) *ends[k].get() = handles[k];
}
template <typename End>
void own(std::vector<End> &ends, const std::vector<disruptor_receiver> &handles, const std::vector<std::uint64_t> &upstreams) noexcept {
    own(ends, handles);
    for (std::size_t k = 0; k < handles.size(); k++) ends[k].takes_place(k, upstreams[k]);
}
// So many senders, or as many as are refused like them.
inline std::size_t few(std::size_t senders) noexcept { return std::min<std::size_t>(senders, 17); }

// Opens a ring of several senders.
[[nodiscard]] inline ring_of_several open_several(std::uint64_t size, const std::vector<std::uint64_t> &upstreams, std::size_t senders,
                                                  std::uint64_t limit = DISRUPTOR_MAX_LIMIT) {
    senders = few(senders);
    const disruptor::shared all = std::make_shared<common>();
    std::vector<disruptor_sender> sending(senders, disruptor_sender DISRUPTOR_NEW);
    std::vector<disruptor_receiver> receiving(upstreams.size(), disruptor_receiver DISRUPTOR_NEW);
    ring_of_several made = {unopened<sender>(senders, all), unopened<receiver>(upstreams.size(), all), halter(all)};
    check(disruptor_open_several(size, limit, upstreams.data(), upstreams.size(), sending.data(), senders, receiving.data(),
                                 receiving.size(), all->halter()));
    all->has_senders(senders);
    own(made.senders, sending);
    own(made.receivers, receiving, upstreams);
    return made;
}

// Opens a ring: handler k follows those whose bits are in the mask upstreams[k].
[[nodiscard]] inline ring open(std::uint64_t size, const std::vector<std::uint64_t> &upstreams,
                               std::uint64_t limit = DISRUPTOR_MAX_LIMIT) {
    const disruptor::shared all = std::make_shared<common>();
    std::vector<disruptor_receiver> receiving(upstreams.size(), disruptor_receiver DISRUPTOR_NEW);
    ring made = {sender(all), unopened<receiver>(upstreams.size(), all), halter(all)};
    check(disruptor_open(size, limit, upstreams.data(), upstreams.size(), made.sender.get(), receiving.data(), receiving.size(),
                         all->halter()));
    own(made.receivers, receiving, upstreams);
    return made;
}

// Opens a ring of bytes.
template <typename T>
[[nodiscard]] ring_of<T> open_of(std::uint64_t size, const std::vector<std::uint64_t> &upstreams,
                                 std::uint64_t limit = DISRUPTOR_MAX_LIMIT) {
    const disruptor::shared all = std::make_shared<common>();
    std::vector<disruptor_receiver> receiving(upstreams.size(), disruptor_receiver DISRUPTOR_NEW);
    ring_of<T> made = {sender_of<T>(all), unopened<receiver_of<T>>(upstreams.size(), all), halter(all)};
    check(disruptor_open_bytes(size, limit, sizeof(T), upstreams.data(), upstreams.size(), made.sender.get(), receiving.data(),
                               receiving.size(), all->halter()));
    own(made.receivers, receiving, upstreams);
    return made;
}

} // namespace disruptor
#endif
