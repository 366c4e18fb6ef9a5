// Rings of slots for C++ (17 or later): the events are of any type that has a default constructor, lie in an array that all ends
// keep, and are filled, read and changed in place. A builder gives each handler of a graph a thread of its own.
#if __cplusplus < 201703L
#error "disruptor needs C++17"
#endif
#ifndef DISRUPTOR_SLOTS_HPP
#define DISRUPTOR_SLOTS_HPP

#include "disruptor.hpp"
#include <exception>
#include <functional>
#include <initializer_list>
#include <string>
#include <thread>
#ifdef __linux__
#include <sys/prctl.h>
#endif

#if !defined(DISRUPTOR_TELLS_SANITIZER)
#if defined(__SANITIZE_THREAD__)
#define DISRUPTOR_TELLS_SANITIZER 1
#elif defined(__has_feature)
#if __has_feature(thread_sanitizer)
#define DISRUPTOR_TELLS_SANITIZER 1
#endif
#endif
#endif
#if !defined(DISRUPTOR_TELLS_SANITIZER)
#define DISRUPTOR_TELLS_SANITIZER 0
#endif
#if DISRUPTOR_TELLS_SANITIZER
extern "C" void __tsan_acquire(void *at);
extern "C" void __tsan_release(void *at);
#endif

namespace disruptor {

// The sanitizer of threads sees no atomic of the proved library, and would find a race wherever two threads use a slot in turn. So it is
// told that what was done before a publication or a completion comes before what follows each later claim or poll of the ring. That is
// coarse: it finds no race that this order hides. Define DISRUPTOR_TELLS_SANITIZER as 0 where the library itself is instrumented.
inline void tell_after_look(common *ring) noexcept {
#if DISRUPTOR_TELLS_SANITIZER
    if (ring) __tsan_acquire(ring);
#else
    (void)ring;
#endif
}
inline void tell_before_change(common *ring) noexcept {
#if DISRUPTOR_TELLS_SANITIZER
    if (ring) __tsan_release(ring);
#else
    (void)ring;
#endif
}

// The events of a ring, as many as it has slots.
template <typename T>
class slots {
public:
    explicit slots(std::uint64_t size) : size_(size), events_(std::make_unique<T[]>(size)) {}
    T &at(std::uint64_t sequence) noexcept { return events_[DISRUPTOR_SLOT(sequence, size_)]; }
    std::uint64_t size() const noexcept { return size_; }

private:
    std::uint64_t size_;
    std::unique_ptr<T[]> events_;
};
template <typename T>
using shared_slots = std::shared_ptr<std::unique_ptr<slots<T>>>;

// The slots of an end, where it has not been moved from.
template <typename T>
slots<T> &slots_of(const shared_slots<T> &all) {
    if (!all) throw refusal(DISRUPTOR_NOT_OPEN);
    return **all;
}

// An end that fills events and publishes them, for one thread at a time: two at once are undefined. What a filler throws passes, once
// what lies in its slots is published. A filler that publishes by the same end is refused with open-claim.
template <typename T>
class sender_in_place : public sending {
public:
    sender_in_place(const disruptor::shared &all, shared_slots<T> events) : sending(all), slots_(std::move(events)), waiting_(1, bell()) {}
    // Publishes an event, once there is room for it and fill(event) has filled it.
    template <typename Fill>
    void publish(Fill &&fill) {
        static_assert(std::is_invocable_v<Fill &, T &>, "what fills an event is called as fill(event)");
        publish_batch(1, [&](T &event, std::uint64_t) { fill(event); });
    }
    // Publishes n events together, once there is room for all and fill(event, sequence) has filled each.
    template <typename Fill>
    void publish_batch(std::uint64_t n, Fill &&fill) {
        must_take<Fill>();
        may_claim();
        fill_and_publish(claim(n, waiting_), n, fill);
    }
    // The same, or answers false where there is no room now, or another sender came first.
    template <typename Fill>
    [[nodiscard]] bool try_publish_batch(std::uint64_t n, Fill &&fill) {
        must_take<Fill>();
        may_claim();
        const std::optional<std::uint64_t> lo = try_claim(n);
        if (lo) fill_and_publish(*lo, n, fill);
        return lo.has_value();
    }
    // The same, or answers false where that is so when the time is up. It may take ten milliseconds more, where it sleeps.
    template <typename Fill>
    [[nodiscard]] bool try_publish_batch_for(std::chrono::nanoseconds time, std::uint64_t n, Fill &&fill) {
        must_take<Fill>();
        may_claim();
        const std::optional<std::uint64_t> lo = try_claim_for(time, n, waiting_);
        if (lo) fill_and_publish(*lo, n, fill);
        return lo.has_value();
    }
    // How many events it published, for who watches it.
    watch watched() const noexcept { return published_; }
    // Once the ring is open.
    void begin() { waiting_ = waits(slots_of(slots_).size()); }

private:
    template <typename Fill>
    static void must_take() noexcept {
        static_assert(std::is_invocable_v<Fill &, T &, std::uint64_t>, "what fills a batch is called as fill(event, sequence), for each event");
    }
    void may_claim() const {
        if (has_open_claim()) throw refusal(DISRUPTOR_OPEN_CLAIM);
    }
    template <typename Fill>
    void fill_and_publish(std::uint64_t lo, std::uint64_t n, Fill &fill) {
        slots<T> &events = slots_of(slots_);
        tell_after_look(shared_.get());
        try {
            for (std::uint64_t s = lo; s < lo + n; s++) fill(events.at(s), s);
        } catch (...) {
            publish_slots(lo, n);
            throw;
        }
        publish_slots(lo, n);
    }
    void publish_slots(std::uint64_t lo, std::uint64_t n) {
        tell_before_change(shared_.get());
        check(disruptor_publish_slots(get(), lo, lo + n - 1));
        published_.set(published_.count() + n);
        published(n);
    }
    shared_slots<T> slots_;
    waiting waiting_;
    watch published_;
};

// That a handler can be called so, to say it in a sentence where it cannot.
template <typename Handler, typename Event>
constexpr void must_take() noexcept {
    static_assert(std::is_invocable_v<Handler &, Event &, std::uint64_t, bool>,
                  "a handler is called as handle(event, sequence, is_last_of_batch), and its event is const but for handle_mut");
}

// The end of a handler. It may change an event where each other handler comes before it or after it.
template <typename T>
class receiver_in_place : public receiving {
public:
    receiver_in_place(const disruptor::shared &all, shared_slots<T> events) : receiving(all), slots_(std::move(events)) {}
    // Shows `handle(event, sequence, is_last_of_batch)` the next events, `room` at most, and completes them.
    template <typename Handler>
    offer receive(std::uint64_t room, Handler &&handle) {
        must_take<Handler, T>();
        const auto take = [&] {
            offer found = {};
            check(disruptor_poll_slots(get(), room, &found));
            tell_after_look(shared_.get());
            return polled(found);
        };
        slots<T> &events = slots_of(slots_);
        const auto tell = [&](T &event, std::uint64_t sequence, bool is_last) {
            const told told{shared_.get()};
            handle(event, sequence, is_last);
        };
        return show(room, take, [&](std::uint64_t s) -> T & { return events.at(s); }, tell);
    }
    // The same, once there are events: what it finds when the time is up, or at its cut where a handler that it follows went away, may
    // be none. It may take ten milliseconds more, where it sleeps.
    template <typename Handler>
    offer receive_for(std::chrono::nanoseconds time, std::uint64_t room, Handler &&handle) {
        waiting how = waits(slots_of(slots_).size());
        return poll_until(end_of(time), how, [&] { return receive(room, handle); });
    }
    // The same until the ring is drained; it sleeps while none comes. It throws `broken` at its cut, where a handler that it follows
    // went away.
    template <typename Handler>
    void run(Handler &&handle) {
        if (!run_or_lose_one(handle)) throw broken();
    }
    // The same, or answers false there.
    template <typename Handler>
    [[nodiscard]] bool run_or_lose_one(Handler &&handle) {
        const std::uint64_t room = slots_of(slots_).size();
        return take_turns(room, [&] { return receive(room, handle); });
    }

private:
    // An event that was shown may be completed, also where its handler threw.
    struct told {
        common *ring;
        ~told() { tell_before_change(ring); }
    };
    shared_slots<T> slots_;
};

template <typename T>
struct ring_in_place {
    sender_in_place<T> sender;
    std::vector<receiver_in_place<T>> receivers;
    disruptor::halter halter;
};

template <typename T>
struct ring_in_place_of_several {
    std::vector<sender_in_place<T>> senders;
    std::vector<receiver_in_place<T>> receivers;
    disruptor::halter halter;
};

// Opens a ring of slots: handler k follows those whose bits are in the mask upstreams[k].
template <typename T>
[[nodiscard]] ring_in_place<T> open_in_place(std::uint64_t size, const std::vector<std::uint64_t> &upstreams,
                                             std::uint64_t limit = DISRUPTOR_MAX_LIMIT) {
    const disruptor::shared all = std::make_shared<common>();
    const shared_slots<T> events = std::make_shared<std::unique_ptr<slots<T>>>();
    ring_in_place<T> made = {{all, events}, unopened<receiver_in_place<T>>(upstreams.size(), all, events), halter(all)};
    std::vector<disruptor_receiver> receiving(upstreams.size(), disruptor_receiver DISRUPTOR_NEW);
    check(disruptor_open_slots(size, limit, upstreams.data(), upstreams.size(), made.sender.get(), receiving.data(), receiving.size(),
                               all->halter()));
    own(made.receivers, receiving, upstreams);
    *events = std::make_unique<slots<T>>(size);
    made.sender.begin();
    return made;
}

// Opens one of several senders, which ends with a halt, or with the last of them.
template <typename T>
[[nodiscard]] ring_in_place_of_several<T> open_several_in_place(std::uint64_t size, const std::vector<std::uint64_t> &upstreams,
                                                                std::size_t senders, std::uint64_t limit = DISRUPTOR_MAX_LIMIT) {
    senders = few(senders);
    const disruptor::shared all = std::make_shared<common>();
    const shared_slots<T> events = std::make_shared<std::unique_ptr<slots<T>>>();
    ring_in_place_of_several<T> made = {unopened<sender_in_place<T>>(senders, all, events),
                                        unopened<receiver_in_place<T>>(upstreams.size(), all, events), halter(all)};
    std::vector<disruptor_sender> sending(senders, disruptor_sender DISRUPTOR_NEW);
    std::vector<disruptor_receiver> receiving(upstreams.size(), disruptor_receiver DISRUPTOR_NEW);
    check(disruptor_open_several_slots(size, limit, upstreams.data(), upstreams.size(), sending.data(), senders, receiving.data(),
                                       receiving.size(), all->halter()));
    all->has_senders(senders);
    own(made.senders, sending);
    own(made.receivers, receiving, upstreams);
    *events = std::make_unique<slots<T>>(size);
    for (sender_in_place<T> &it : made.senders) it.begin();
    return made;
}

// What was thrown says, where it is a std::exception.
inline std::string said_by(const std::exception_ptr &thrown) {
    try {
        std::rethrow_exception(thrown);
    } catch (const std::exception &it) {
        return std::string(": ") + it.what();
    } catch (...) {
        return "";
    }
}

// A handler threw: which one, and what, for std::rethrow_exception. The ring was halted, so a publication is refused with this one.
class handler_failed : public refusal {
public:
    handler_failed(const std::string &name, std::exception_ptr what)
        : refusal(DISRUPTOR_HALTED, "a handler threw: " + name + said_by(what)), name_(name), what_(std::move(what)) {}
    const std::string &name() const noexcept { return name_; }
    std::exception_ptr thrown() const noexcept { return what_; }

private:
    std::string name_;
    std::exception_ptr what_;
};

// A handler of a graph has a thread; the first that throws, or ends its thread, halts the ring.
class handlers {
public:
    handlers() = default;
    handlers(handlers &&) = default;
    handlers &operator=(handlers &&) = delete;
    ~handlers() { join(); }
    template <typename T, typename Work>
    void start(const std::string &name, receiver_in_place<T> receiver, Work work) {
        watched_.emplace_back(name, receiver.watched());
        threads_.emplace_back([name, receiver = std::move(receiver), work = std::move(work), &failed = *failed_]() mutable {
            name_thread(name.c_str());
            // (the receiver goes away at the end, which halts the ring where it is not drained)
            receiver_in_place<T> own = std::move(receiver);
            try {
                work(own);
            } catch (...) {
                const std::exception_ptr thrown = std::current_exception();
                failed.note(name, thrown ? thrown : std::make_exception_ptr(std::runtime_error("it ended its own thread")), own);
                // (what is no exception is pthread_exit or pthread_cancel, and a program that keeps one from going on is aborted)
                if (!thrown) throw;
            }
        });
    }
    // How many events the handler with this name completed, or nothing where none has it.
    std::optional<std::uint64_t> completed(const std::string &name) const {
        for (const auto &[named, completed] : watched_)
            if (named == name) return completed.count();
        return std::nullopt;
    }
    void join() noexcept {
        for (std::thread &thread : threads_)
            if (thread.joinable()) thread.join();
    }
    // Joins them, and throws handler_failed where one threw, each time that it is asked: of several the first.
    void finish() {
        join();
        if (failed_->what) std::rethrow_exception(failed_->what);
    }

private:
    // The thread has the first fifteen bytes of its handler's name, for who watches it (on Linux).
    static void name_thread(const char *name) noexcept {
#ifdef __linux__
        prctl(PR_SET_NAME, name);
#else
        (void)name;
#endif
    }
    struct failure {
        // Notes what ended a handler, for its ring and for who finishes it.
        void note(const std::string &name, const std::exception_ptr &thrown, receiving &end) {
            const std::exception_ptr failed = std::make_exception_ptr(handler_failed(name, thrown));
            end.fail(failed);
            const std::lock_guard<std::mutex> lock(mutex);
            if (!what) what = failed;
        }
        std::mutex mutex;
        std::exception_ptr what;
    };
    std::unique_ptr<failure> failed_ = std::make_unique<failure>();
    std::vector<std::pair<std::string, watch>> watched_;
    std::vector<std::thread> threads_;
};

// A ring of one sender whose handlers run. When it is finished or goes away the ring is closed, and it waits until each handler had
// every event. One thread at a time publishes by it, else it is undefined; any may halt it or ask how far it is. Its sender cannot be moved
// out of it, since the handlers end once that closes the ring.
template <typename T>
class running : private sender_in_place<T> {
public:
    using sender_in_place<T>::publish;
    using sender_in_place<T>::publish_batch;
    using sender_in_place<T>::try_publish_batch;
    using sender_in_place<T>::try_publish_batch_for;
    using sender_in_place<T>::watched;
    using sender_in_place<T>::progress;
    using sender_in_place<T>::close;
    running(sender_in_place<T> sender, disruptor::halter halter, handlers threads)
        : sender_in_place<T>(std::move(sender)), halter_(std::move(halter)), threads_(std::move(threads)) {}
    running(running &&) = default;
    running &operator=(running &&) = delete;
    // (its sender leaves first, since the threads are joined before that goes away)
    ~running() { this->leave(); }
    void halt() { halter_.halt(); }
    // How many events are published. Any thread may ask that at any time.
    [[nodiscard]] std::uint64_t cursor() const { return halter_.cursor(); }
    // How many events the handler with this name completed, or nothing where none has it. Any thread may ask that at any time.
    [[nodiscard]] std::optional<std::uint64_t> completed(const std::string &name) const { return threads_.completed(name); }
    // Closes the ring and joins all threads; throws handler_failed where a handler threw, of several that of the first. One that goes away
    // in place of that says nothing of it.
    void finish() {
        this->close();
        threads_.finish();
    }

private:
    disruptor::halter halter_;
    handlers threads_;
};

// The same of several senders. Move each out of `senders` to a thread of its own, and finish it, which waits until these are gone; or join
// first the threads that use one where it lies. Where it goes away unfinished, it is halted at once.
template <typename T>
class running_of_several {
public:
    std::vector<sender_in_place<T>> senders;
    running_of_several(std::vector<sender_in_place<T>> ends, disruptor::halter halter, handlers threads)
        : senders(std::move(ends)), halter_(std::make_unique<disruptor::halter>(std::move(halter))), threads_(std::move(threads)) {}
    running_of_several(running_of_several &&) = default;
    running_of_several &operator=(running_of_several &&) = delete;
    ~running_of_several() {
        if (halter_) halter_->halt();
    }
    void halt() {
        if (!halter_) throw refusal(DISRUPTOR_NOT_OPEN);
        halter_->halt();
    }
    // How many sequences are claimed. Any thread may ask that at any time.
    [[nodiscard]] std::uint64_t cursor() const {
        if (!halter_) throw refusal(DISRUPTOR_NOT_OPEN);
        return halter_->cursor();
    }
    [[nodiscard]] std::optional<std::uint64_t> completed(const std::string &name) const { return threads_.completed(name); }
    // Waits until each sender that was moved out is gone, or the ring is halted, and then until each handler had every event that was
    // claimed; throws handler_failed where a handler threw. A sender that you moved out and still hold it waits for for ever.
    void finish() {
        if (!halter_) throw refusal(DISRUPTOR_NOT_OPEN);
        for (sender_in_place<T> &it : senders) it.count_as_gone();
        threads_.finish();
    }

private:
    std::unique_ptr<disruptor::halter> halter_;
    handlers threads_;
};

// Builds a graph: handlers are added in order, and each follows those that the last `after` named, or none. A bad name is thrown
// as std::invalid_argument.
template <typename T>
class builder {
public:
    // For a ring of `size` slots, a power of two up to 65,536.
    explicit builder(std::uint64_t size) : size_(size) {}
    // Adds a handler, which is shown each event: handle(const T &event, sequence, is_last_of_batch).
    template <typename Handler>
    builder &handle(const std::string &name, Handler handler) {
        must_take<Handler, const T>();
        // (what a handler owns need not be copyable, as a function must be)
        return add(name, false, [handler = std::make_shared<Handler>(std::move(handler))](receiver_in_place<T> &receiver) {
            return receiver.run_or_lose_one([&](const T &event, std::uint64_t sequence, bool is_last) { (*handler)(event, sequence, is_last); });
        });
    }
    // Adds a handler that changes events: handle(T &event, sequence, is_last_of_batch). Each other handler comes before it or after.
    template <typename Handler>
    builder &handle_mut(const std::string &name, Handler handler) {
        must_take<Handler, T>();
        return add(name, true, [handler = std::make_shared<Handler>(std::move(handler))](receiver_in_place<T> &receiver) {
            return receiver.run_or_lose_one(*handler);
        });
    }
    // The handlers that come next follow these.
    builder &after(std::initializer_list<const char *> names) {
        after_ = 0;
        for (const char *name : names) after_ |= UINT64_C(1) << place_of(name);
        return *this;
    }
    // The handlers that come next follow all that there are.
    builder &and_then() {
        after_ = (UINT64_C(1) << works_.size()) - 1;
        return *this;
    }
    // Opens the ring, and starts a thread for each handler. The builder is empty then.
    [[nodiscard]] running<T> start() {
        must_be_alone();
        ring_in_place<T> ring = open_in_place<T>(size_, upstreams_);
        handlers threads = start_all(ring.receivers, ring.halter);
        return running<T>(std::move(ring.sender), std::move(ring.halter), std::move(threads));
    }
    [[nodiscard]] running_of_several<T> start_several(std::size_t senders) {
        must_be_alone();
        ring_in_place_of_several<T> ring = open_several_in_place<T>(size_, upstreams_, senders);
        handlers threads = start_all(ring.receivers, ring.halter);
        return running_of_several<T>(std::move(ring.senders), std::move(ring.halter), std::move(threads));
    }

private:
    struct work {
        std::string name;
        bool is_changing;
        std::function<bool(receiver_in_place<T> &)> run;
        // All handlers that come before it.
        std::uint64_t before;
    };
    template <typename Run>
    builder &add(const std::string &name, bool is_changing, Run run) {
        for (const work &other : works_)
            if (other.name == name) throw std::invalid_argument("two handlers have the name " + name);
        if (works_.size() == 16) throw refusal(DISRUPTOR_TOO_MANY);
        std::uint64_t before = after_;
        for (std::size_t k = 0; k < works_.size(); k++)
            if (after_ >> k & 1) before |= works_[k].before;
        works_.push_back({name, is_changing, std::move(run), before});
        upstreams_.push_back(after_);
        return *this;
    }
    std::size_t place_of(const std::string &name) const {
        for (std::size_t k = 0; k < works_.size(); k++)
            if (works_[k].name == name) return k;
        throw std::invalid_argument("no handler before has the name " + name);
    }
    void must_be_alone() const {
        for (std::size_t k = 0; k < works_.size(); k++)
            for (std::size_t other = 0; works_[k].is_changing && other < works_.size(); other++)
                if (other != k && !(works_[k].before >> other & 1) && !(works_[other].before >> k & 1))
                    throw std::invalid_argument(works_[k].name + " would change events that another handler reads at the same time");
    }
    handlers start_all(std::vector<receiver_in_place<T>> &receivers, disruptor::halter &halter) {
        std::vector<work> works = std::exchange(works_, {});
        upstreams_.clear(), after_ = 0;
        handlers threads;
        try {
            for (std::size_t k = 0; k < works.size(); k++) threads.start(works[k].name, std::move(receivers[k]), std::move(works[k].run));
        } catch (...) {
            // (the threads that started are joined)
            halter.give_up();
            throw;
        }
        return threads;
    }
    std::uint64_t size_, after_ = 0;
    std::vector<work> works_;
    std::vector<std::uint64_t> upstreams_;
};

} // namespace disruptor
#endif
