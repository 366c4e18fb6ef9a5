/* A graph of handlers by their names for C (11 or later, with threads of POSIX): one sender hands events of your own type, which lie in
 * an array of yours, to handlers that have a thread each. It is made of the calls of disruptor.h, a ring of slots:
 *
 *   static struct order orders[1024];
 *   disruptor_graph graph = DISRUPTOR_GRAPH(orders);
 *   disruptor_handle(&graph, "journal", journal, NULL, "");
 *   disruptor_handle_changing(&graph, "fees", fees, NULL, "journal");
 *   uint32_t refused = disruptor_start(&graph);
 *
 * One thread at a time uses a graph, from the start to the end: you may pass it to another by a start, a join or a lock. Any thread may
 * call disruptor_stop at any time, and disruptor_sent and disruptor_completed from the start to the end. The graph stays where it is
 * meanwhile: its type is aligned to 128 bytes, so memory for it is that of aligned_alloc(128, ..) and not of malloc. */
#ifdef __cplusplus
#error "disruptor_threads.h is for C: take the builder of disruptor_slots.hpp"
#endif
#ifndef DISRUPTOR_THREADS_H
#define DISRUPTOR_THREADS_H

#include "disruptor.h"
#include <pthread.h>
#include <string.h>
#ifdef __linux__
#include <sys/prctl.h>
#endif

enum { DISRUPTOR_MOST_HANDLERS = 16 };

/* What is done with each event: it may read it where it lies, until it returns, and change it if it was added as one that does.
 * `own` is what was given with it. It answers 0, or else the ring is halted, and disruptor_finish answers that; -1 of one that ended its
 * thread, or could not be given any. */
typedef int disruptor_handler(void *own, void *event, uint64_t sequence, bool is_last_of_batch);

struct disruptor_graph;

/* A handler of a graph. */
typedef struct disruptor_work {
    const char *name;
    disruptor_handler *handle;
    void *own;
    bool is_changing;
    /* The handlers that it follows, and all that come before it. */
    uint64_t upstreams, before;
    struct disruptor_graph *graph;
    pthread_t thread;
    /* How many events it completed, and how many it was shown, which its thread alone uses. */
    DISRUPTOR_ALIGNED uint64_t completed;
    uint64_t shown;
} disruptor_work;

typedef struct disruptor_graph {
    disruptor_sender sender;
    disruptor_receiver receivers[DISRUPTOR_MOST_HANDLERS];
    disruptor_halter halter;
    disruptor_bell bell;
    disruptor_waiting waiting;
    unsigned char *events;
    size_t width;
    uint64_t size;
    disruptor_work works[DISRUPTOR_MOST_HANDLERS];
    size_t handlers, started;
    /* The first refusal while it was built. */
    uint32_t refused;
    /* Who is at fault where it is refused, "the graph", "the ring" or a handler by its name, and why. */
    const char *at_fault, *why;
    /* Which handler failed first, or a null pointer, and what it answered. */
    const char *failed;
    int failure;
    /* The handlers that ended before they had every event. */
    uint64_t gone;
    pthread_mutex_t lock;
} disruptor_graph;

/* A graph over an array of events, whose length is a power of two up to 65,536. A pointer is no array, and does not compile. */
#define DISRUPTOR_GRAPH(array) \
    disruptor_graph_of(array, sizeof(array) / sizeof *(array) / sizeof(char[DISRUPTOR_IS_ARRAY(array) ? 1 : -1]), \
                       sizeof *(array))
#ifndef __GNUC__
#define DISRUPTOR_IS_ARRAY(it) true
#else
#define DISRUPTOR_IS_ARRAY(it) (!__builtin_types_compatible_p(__typeof__(it), __typeof__(&*(it))))
#endif

/* A graph over `size` events of `width` bytes each from a pointer on, as those of malloc; DISRUPTOR_GRAPH(array) makes that of an array.
 * It is a call, so a graph outside functions is assigned in one: `graph = DISRUPTOR_GRAPH(orders);` before its handlers are added. */
static inline disruptor_graph disruptor_graph_of(void *events, uint64_t size, size_t width) {
    disruptor_graph graph = {.events = (unsigned char *)events, .width = width, .size = size, .lock = PTHREAD_MUTEX_INITIALIZER};
    return graph;
}

/* Notes who is at fault, and answers the number. */
static inline uint32_t disruptor_at_fault(disruptor_graph *graph, uint32_t refused, const char *name, const char *why) {
    graph->at_fault = name, graph->why = why;
    return refused;
}

/* The place of the handler with this name, or of none. */
static inline size_t disruptor_place_of(const disruptor_graph *graph, const char *name, size_t length) {
    size_t k = 0;
    while (k < graph->handlers && (strlen(graph->works[k].name) != length || memcmp(graph->works[k].name, name, length))) k++;
    return k;
}

/* Notes in a handler whom it follows, and answers whether each of them is there. */
static inline bool disruptor_follows(const disruptor_graph *graph, disruptor_work *work, const char *after) {
    for (const char *name = after + strspn(after, " "); *name; name += strspn(name, " ")) {
        const size_t length = strcspn(name, " "), up = disruptor_place_of(graph, name, length);
        if (up == graph->handlers) return false;
        work->upstreams |= UINT64_C(1) << up, work->before |= UINT64_C(1) << up | graph->works[up].before;
        name += length;
    }
    return true;
}

/* Adds a handler, which follows those that `after` names, with a space between two, or none. The name stays where it is. Refusals: BAD_ORDER
 * (one of the names of `after` is none before, or another handler has this name) and TOO_MANY; disruptor_start answers them too. Of the
 * first one graph.at_fault names the handler, and graph.why says why. STILL_OPEN: the graph has started; once it is finished it may
 * have more. */
static inline uint32_t disruptor_add(disruptor_graph *graph, const disruptor_work *added, const char *after) {
    disruptor_work work = *added;
    uint32_t refused = DISRUPTOR_BAD_ORDER;
    const char *why = NULL;
    if (graph->started) return disruptor_at_fault(graph, DISRUPTOR_STILL_OPEN, work.name, "the graph has started");
    if (graph->handlers == DISRUPTOR_MOST_HANDLERS) why = "there are 16 handlers before it", refused = DISRUPTOR_TOO_MANY;
    else if (disruptor_place_of(graph, work.name, strlen(work.name)) < graph->handlers) why = "another handler has this name";
    else if (!disruptor_follows(graph, &work, after ? after : "")) why = "it follows a name that no handler before it has";
    if (!why) {
        graph->works[graph->handlers++] = work;
        return DISRUPTOR_OK;
    }
    if (!graph->refused) graph->refused = disruptor_at_fault(graph, refused, work.name, why);
    return refused;
}
static inline uint32_t disruptor_handle(disruptor_graph *graph, const char *name, disruptor_handler *handle, void *own,
                                        const char *after) {
    const disruptor_work work = {.name = name, .handle = handle, .own = own};
    return disruptor_add(graph, &work, after);
}

/* Adds one that changes events. Each other handler comes before it or after it, or disruptor_start is refused with BAD_ORDER. */
static inline uint32_t disruptor_handle_changing(disruptor_graph *graph, const char *name, disruptor_handler *handle, void *own,
                                                 const char *after) {
    const disruptor_work work = {.name = name, .handle = handle, .own = own, .is_changing = true};
    return disruptor_add(graph, &work, after);
}

/* The name of a handler that changes events and has them not alone, or a null pointer. */
static inline const char *disruptor_not_alone(const disruptor_graph *graph) {
    for (size_t k = 0; k < graph->handlers; k++)
        for (size_t other = 0; graph->works[k].is_changing && other < graph->handlers; other++)
            if (other != k && !(graph->works[k].before >> other & 1) && !(graph->works[other].before >> k & 1)) return graph->works[k].name;
    return NULL;
}

/* The event of a sequence. */
static inline void *disruptor_slot(disruptor_graph *graph, uint64_t sequence) {
    return graph->events + DISRUPTOR_SLOT(sequence, graph->size) * graph->width;
}

/* How many events the handler with this name completed, or 0 where none has it: by whole batches, of a whole ring at most. Any thread may
 * ask that from the start to the end. */
static inline uint64_t disruptor_completed(const disruptor_graph *graph, const char *name) {
    const size_t k = disruptor_place_of(graph, name, strlen(name));
    return k < graph->handlers ? __atomic_load_n(&graph->works[k].completed, __ATOMIC_ACQUIRE) : 0;
}

/* How many events are published. Any thread may ask that from the start to the end; before and after it is 0. */
static inline uint64_t disruptor_sent(disruptor_graph *graph) {
    uint64_t count = 0;
    pthread_mutex_lock(&graph->lock);
    disruptor_cursor(&graph->halter, &count);
    pthread_mutex_unlock(&graph->lock);
    return count;
}

/* Halts the ring from any thread, at any time: before the start and after the end there is none to halt. */
static inline void disruptor_stop(disruptor_graph *graph) {
    pthread_mutex_lock(&graph->lock);
    disruptor_halt(&graph->halter);
    pthread_mutex_unlock(&graph->lock);
    disruptor_ring(&graph->bell);
}

/* Halts it for a handler that ends before it had every event, so that nobody waits for it. It failed, or one that it follows did. */
static inline void disruptor_give_up(disruptor_work *work, int failure) {
    disruptor_graph *graph = work->graph;
    pthread_mutex_lock(&graph->lock);
    if (failure && !graph->failed) graph->failed = work->name, graph->failure = failure;
    pthread_mutex_unlock(&graph->lock);
    __atomic_fetch_or(&graph->gone, UINT64_C(1) << (work - graph->works), __ATOMIC_SEQ_CST);
    disruptor_stop(graph);
}

/* Completes what a handler was shown without a failure. */
static inline void disruptor_complete_shown(disruptor_work *work) {
    disruptor_graph *graph = work->graph;
    disruptor_complete(&graph->receivers[work - graph->works], work->shown);
    __atomic_store_n(&work->completed, work->shown, __ATOMIC_RELEASE);
    disruptor_ring(&graph->bell);
}

/* Shows a handler the events of a batch, and completes those before the one at which it fails. */
static inline int disruptor_show(disruptor_work *work, const disruptor_offer *offer) {
    const uint64_t end = offer->first + offer->count;
    int failure = 0;
    while (work->shown < end && !failure) {
        failure = work->handle(work->own, disruptor_slot(work->graph, work->shown), work->shown, work->shown + 1 == end);
        if (!failure) work->shown++;
    }
    disruptor_complete_shown(work);
    return failure;
}

/* Gives the thread the first fifteen bytes of a name, for who watches it (on Linux). */
static inline void disruptor_name_thread(const char *name) {
#ifdef __linux__
    prctl(PR_SET_NAME, name);
#else
    (void)name;
#endif
}

/* Where the events of a handler are cut: a handler that ended before it had every event leaves a cut, which is how many it completed.
 * Nobody who follows it has an event from there on. So of those that it follows and that are gone, the least count cuts it, and it ends
 * once it completed so many: others that it follows may be on their way there yet. Where none is gone, there is no cut. */
static inline uint64_t disruptor_cut(const disruptor_work *work) {
    const disruptor_graph *graph = work->graph;
    const uint64_t gone = __atomic_load_n(&graph->gone, __ATOMIC_SEQ_CST) & work->upstreams;
    uint64_t cut = UINT64_MAX;
    for (size_t k = 0; gone >> k; k++) {
        const uint64_t completed = __atomic_load_n(&graph->works[k].completed, __ATOMIC_ACQUIRE);
        if (gone >> k & 1 && completed < cut) cut = completed;
    }
    return cut;
}

/* Takes turns until the handler had every event, or those up to its cut, or it fails. */
static inline void disruptor_take_turns(disruptor_work *work) {
    disruptor_graph *graph = work->graph;
    disruptor_receiver *receiver = &graph->receivers[work - graph->works];
    disruptor_waiting waiting = disruptor_waits_by(graph->size, &graph->bell);
    for (;;) {
        disruptor_offer offer;
        if (disruptor_poll_slots(receiver, graph->size, &offer) || offer.kind == DISRUPTOR_DRAINED) return;
        if (offer.kind == DISRUPTOR_BATCH) {
            disruptor_found(&waiting, offer.count);
            const int failure = disruptor_show(work, &offer);
            if (!failure) continue;
            disruptor_give_up(work, failure);
            return;
        }
        if (work->completed >= disruptor_cut(work)) {
            disruptor_give_up(work, 0);
            return;
        }
        disruptor_wait(&waiting);
    }
}

/* A handler that ends its own thread has failed too, and completes what it was shown before. */
static inline void disruptor_die(void *given) {
    disruptor_complete_shown((disruptor_work *)given);
    disruptor_give_up((disruptor_work *)given, -1);
}

/* The thread of a handler, which has its name. */
static inline void *disruptor_work_on(void *given) {
    disruptor_work *work = (disruptor_work *)given;
    disruptor_name_thread(work->name);
    pthread_cleanup_push(disruptor_die, given);
    disruptor_take_turns(work);
    pthread_cleanup_pop(0);
    return NULL;
}

/* Publishes what is claimed and not published, with what lies there, so that the ring can be closed. */
static inline void disruptor_send_rest(disruptor_graph *graph) {
    disruptor_counts sent = {0, 0};
    if (disruptor_progress(&graph->sender, &sent) || sent.begun == sent.done) return;
    disruptor_publish_slots(&graph->sender, sent.done, sent.begun - 1);
}

/* Closes the ring, waits until each handler had every event, and frees the ring; a claim that is open is published first. It answers 0,
 * or what the first handler answered that failed: graph.failed names it. Those that follow it had all events before the one at which it
 * failed, and none from that on. */
static inline int disruptor_finish(disruptor_graph *graph) {
    disruptor_send_rest(graph);
    disruptor_close(&graph->sender);
    disruptor_ring(&graph->bell);
    for (size_t k = 0; k < graph->started; k++) pthread_join(graph->works[k].thread, NULL);
    graph->started = 0;
    disruptor_free(&graph->sender);
    for (size_t k = 0; k < graph->handlers; k++) disruptor_free(&graph->receivers[k]);
    pthread_mutex_lock(&graph->lock);
    disruptor_free(&graph->halter);
    pthread_mutex_unlock(&graph->lock);
    return graph->failure;
}

/* Opens the ring, and starts a thread for each handler. A graph that was finished may be started again. Refusals: those of the calls
 * that built the graph, BAD_ORDER where one that changes events has them not alone, STILL_OPEN where it has started, those of
 * disruptor_open_slots, and NO_MEMORY where a thread is not started; graph.at_fault says who is at fault, and graph.why why. */
static inline uint32_t disruptor_start(disruptor_graph *graph) {
    uint64_t upstreams[DISRUPTOR_MOST_HANDLERS];
    if (graph->started) return disruptor_at_fault(graph, DISRUPTOR_STILL_OPEN, "the graph", "it has started: finish it first");
    for (size_t k = 0; k < graph->handlers; k++) upstreams[k] = graph->works[k].upstreams;
    if (graph->refused) return graph->refused;
    const char *not_alone = disruptor_not_alone(graph);
    if (not_alone)
        return disruptor_at_fault(graph, DISRUPTOR_BAD_ORDER, not_alone, "it would change events that another handler reads at the same time");
    /* (another thread may stop it meanwhile) */
    pthread_mutex_lock(&graph->lock);
    const uint32_t refused = disruptor_open_slots(graph->size, DISRUPTOR_MAX_LIMIT, upstreams, graph->handlers, &graph->sender,
                                                  graph->receivers, graph->handlers, &graph->halter);
    pthread_mutex_unlock(&graph->lock);
    if (refused) return disruptor_at_fault(graph, refused, "the ring", disruptor_text(refused));
    graph->waiting = disruptor_waits_by(graph->size, &graph->bell);
    graph->failed = NULL, graph->failure = 0, graph->gone = 0;
    for (size_t k = 0; k < graph->handlers; k++) graph->works[k].completed = graph->works[k].shown = 0;
    for (; graph->started < graph->handlers; graph->started++) {
        disruptor_work *work = &graph->works[graph->started];
        work->graph = graph;
        if (pthread_create(&work->thread, NULL, disruptor_work_on, work)) {
            disruptor_give_up(work, -1);
            disruptor_finish(graph);
            return disruptor_at_fault(graph, DISRUPTOR_NO_MEMORY, work->name, "its thread cannot be started");
        }
    }
    return DISRUPTOR_OK;
}

/* Claims n events for the sender to fill, from the sequence *lo on, once there is room. Refusals: those of disruptor_claim but
 * NO_ROOM; HALTED also where a handler failed. */
static inline uint32_t disruptor_next(disruptor_graph *graph, uint64_t n, uint64_t *lo) {
    return disruptor_claim_within(&graph->sender, n, lo, &graph->waiting, DISRUPTOR_FOREVER);
}

/* As disruptor_next, or NO_ROOM where there is none when so many nanoseconds are over; it may take ten milliseconds more. */
static inline uint32_t disruptor_next_within(disruptor_graph *graph, uint64_t n, uint64_t *lo, uint64_t nanoseconds) {
    return disruptor_claim_within(&graph->sender, n, lo, &graph->waiting, nanoseconds);
}

/* Publishes them. Refusals: those of disruptor_publish_slots. */
static inline uint32_t disruptor_send(disruptor_graph *graph, uint64_t lo, uint64_t n) {
    const uint32_t refused = disruptor_publish_slots(&graph->sender, lo, lo + n - 1);
    if (!refused) disruptor_ring(&graph->bell);
    return refused;
}

#endif
