/* What a graph of handlers by their names refuses, and what a handler that fails does. */
#include <disruptor_threads.h>
#include <stdio.h>
#include <stdlib.h>
#include <threads.h>
#include <unistd.h>

static void expect(bool holds, const char *what, int line) {
    if (holds) return;
    printf("line %d: not so: %s\n", line, what);
    exit(1);
}
#define EXPECT(fact) expect(fact, #fact, __LINE__)

static uint64_t events[4], odd[3], many[1024];
static uint64_t most, sum;

static int none(void *own, void *event, uint64_t sequence, bool is_last) {
    (void)own, (void)event, (void)sequence, (void)is_last;
    return 0;
}

static int twice(void *own, void *event, uint64_t sequence, bool is_last) {
    (void)own, (void)sequence, (void)is_last;
    *(uint64_t *)event *= 2;
    return 0;
}

static int adds(void *own, void *event, uint64_t sequence, bool is_last) {
    (void)sequence, (void)is_last;
    *(uint64_t *)own += *(uint64_t *)event;
    return 0;
}

static int fails_at_ten(void *own, void *event, uint64_t sequence, bool is_last) {
    (void)own, (void)sequence, (void)is_last;
    return *(uint64_t *)event == 10 ? 7 : 0;
}

static int follows(void *own, void *event, uint64_t sequence, bool is_last) {
    (void)sequence, (void)is_last;
    *(uint64_t *)own = *(uint64_t *)event;
    return 0;
}

static bool is_at_fault(const disruptor_graph *graph, const char *name, const char *why) {
    return strcmp(graph->at_fault, name) == 0 && strcmp(graph->why, why) == 0;
}

static void graphs_are_refused(void) {
    disruptor_graph twice_a = DISRUPTOR_GRAPH(events);
    EXPECT(disruptor_handle(&twice_a, "a", none, NULL, "") == DISRUPTOR_OK);
    EXPECT(disruptor_handle(&twice_a, "a", none, NULL, "") == DISRUPTOR_BAD_ORDER);
    EXPECT(disruptor_start(&twice_a) == DISRUPTOR_BAD_ORDER);
    EXPECT(is_at_fault(&twice_a, "a", "another handler has this name"));
    disruptor_graph unknown = DISRUPTOR_GRAPH(events);
    EXPECT(disruptor_handle(&unknown, "a", none, NULL, "b") == DISRUPTOR_BAD_ORDER);
    EXPECT(is_at_fault(&unknown, "a", "it follows a name that no handler before it has"));
    disruptor_graph parallel = DISRUPTOR_GRAPH(events);
    EXPECT(disruptor_handle(&parallel, "a", none, NULL, "") == DISRUPTOR_OK);
    EXPECT(disruptor_handle_changing(&parallel, "b", twice, NULL, "") == DISRUPTOR_OK);
    EXPECT(disruptor_start(&parallel) == DISRUPTOR_BAD_ORDER);
    EXPECT(is_at_fault(&parallel, "b", "it would change events that another handler reads at the same time"));
    disruptor_graph no_power = DISRUPTOR_GRAPH(odd);
    EXPECT(disruptor_handle(&no_power, "a", none, NULL, "") == DISRUPTOR_OK);
    EXPECT(disruptor_start(&no_power) == DISRUPTOR_BAD_SIZE);
    disruptor_graph empty = DISRUPTOR_GRAPH(events);
    EXPECT(disruptor_start(&empty) == DISRUPTOR_NO_HANDLERS);
    EXPECT(is_at_fault(&empty, "the ring", disruptor_text(DISRUPTOR_NO_HANDLERS)));
}

static void each_follows_its_own(void) {
    uint64_t lo;
    disruptor_graph graph = DISRUPTOR_GRAPH(events);
    EXPECT(disruptor_handle_changing(&graph, "twice", twice, NULL, "") == DISRUPTOR_OK);
    EXPECT(disruptor_handle(&graph, "one", none, NULL, "twice") == DISRUPTOR_OK);
    EXPECT(disruptor_handle(&graph, "other", none, NULL, " twice ") == DISRUPTOR_OK);
    EXPECT(disruptor_handle(&graph, "adds", adds, &sum, "one  other") == DISRUPTOR_OK);
    EXPECT(disruptor_start(&graph) == DISRUPTOR_OK);
    EXPECT(disruptor_next(&graph, 5, &lo) == DISRUPTOR_BAD_COUNT);
    for (uint64_t k = 0; k < 1000; k += 2) {
        EXPECT(disruptor_next(&graph, 2, &lo) == DISRUPTOR_OK && lo == k);
        for (uint64_t s = lo; s < lo + 2; s++) *(uint64_t *)disruptor_slot(&graph, s) = s;
        EXPECT(disruptor_send(&graph, lo, 2) == DISRUPTOR_OK);
    }
    EXPECT(disruptor_finish(&graph) == 0 && !graph.failed);
    EXPECT(sum == 999 * 1000);
    EXPECT(disruptor_completed(&graph, "adds") == 1000 && disruptor_completed(&graph, "none") == 0);
}

static void a_handler_that_fails_halts_the_ring(void) {
    uint64_t lo;
    uint32_t refused = DISRUPTOR_OK;
    disruptor_graph graph = DISRUPTOR_GRAPH(events);
    disruptor_handle(&graph, "first", fails_at_ten, NULL, "");
    disruptor_handle(&graph, "second", follows, &most, "first");
    EXPECT(disruptor_start(&graph) == DISRUPTOR_OK);
    for (uint64_t k = 0; k < 100 && !refused; k++) {
        if ((refused = disruptor_next(&graph, 1, &lo))) break;
        *(uint64_t *)disruptor_slot(&graph, lo) = k;
        disruptor_send(&graph, lo, 1);
    }
    EXPECT(refused == DISRUPTOR_HALTED);
    EXPECT(disruptor_finish(&graph) == 7);
    EXPECT(strcmp(graph.failed, "first") == 0);
    EXPECT(most < 10);
}

static int counts(void *own, void *event, uint64_t sequence, bool is_last) {
    (void)event, (void)sequence, (void)is_last;
    ++*(uint64_t *)own;
    return 0;
}

/* Handles the first two events only once the third is claimed. */
static int fails_at_one(void *own, void *event, uint64_t sequence, bool is_last) {
    (void)event, (void)is_last;
    while (!__atomic_load_n((bool *)own, __ATOMIC_SEQ_CST)) sched_yield();
    return sequence == 1 ? 5 : 0;
}

static int dies(void *own, void *event, uint64_t sequence, bool is_last) {
    (void)own, (void)event, (void)is_last;
    if (sequence == 3) pthread_exit(NULL);
    return 0;
}

static void a_handler_whose_thread_ends_halts_the_ring(void) {
    uint64_t lo, followed = 0;
    disruptor_graph graph = DISRUPTOR_GRAPH(events);
    disruptor_handle(&graph, "dies", dies, NULL, NULL);
    disruptor_handle(&graph, "follows", counts, &followed, "dies");
    EXPECT(disruptor_start(&graph) == DISRUPTOR_OK);
    while (!disruptor_next(&graph, 4, &lo)) disruptor_send(&graph, lo, 4);
    EXPECT(disruptor_finish(&graph) == -1 && strcmp(graph.failed, "dies") == 0);
    EXPECT(followed == 3);
}

static int fails_once(void *own, void *event, uint64_t sequence, bool is_last) {
    bool *has_failed = own;
    const bool fails = sequence == 3 && !*has_failed;
    (void)event, (void)is_last;
    *has_failed = *has_failed || fails;
    return fails ? 9 : 0;
}

static void a_graph_that_failed_may_be_started_again(void) {
    uint64_t lo, followed = 0;
    bool has_failed = false;
    disruptor_graph graph = DISRUPTOR_GRAPH(events);
    disruptor_handle(&graph, "fails", fails_once, &has_failed, NULL);
    disruptor_handle(&graph, "follows", counts, &followed, "fails");
    for (int round = 0; round < 2; round++) {
        EXPECT(disruptor_start(&graph) == DISRUPTOR_OK);
        EXPECT(disruptor_next(&graph, 4, &lo) == DISRUPTOR_OK && disruptor_send(&graph, lo, 4) == DISRUPTOR_OK);
        EXPECT(disruptor_finish(&graph) == (round == 0 ? 9 : 0) && !graph.failed == (round == 1));
        EXPECT(followed == (round == 0 ? 3 : 7) && disruptor_completed(&graph, "fails") == (round == 0 ? 3 : 4));
    }
}

/* Its thread stays on the first processor that the program may use. */
static int pins(void *own, void *event, uint64_t sequence, bool is_last) {
    (void)event, (void)is_last;
    unsigned processor = 0;
    while (sequence == 0 && processor < 1024 && !disruptor_pin(processor)) processor++;
    *(unsigned *)own = processor;
    return 0;
}

static void a_handler_may_keep_its_thread_on_a_processor(void) {
    uint64_t lo;
    unsigned processor = 1024;
    disruptor_graph graph = DISRUPTOR_GRAPH(events);
    disruptor_handle(&graph, "pins", pins, &processor, NULL);
    EXPECT(disruptor_start(&graph) == DISRUPTOR_OK && disruptor_next(&graph, 1, &lo) == DISRUPTOR_OK);
    EXPECT(disruptor_finish(&graph) == 0 && processor < 1024);
    EXPECT(!disruptor_pin(1024) && !disruptor_pin(UINT32_MAX));
}

/* The third event is published only once the handler of the second failed. */
static void who_follows_has_what_was_completed_and_others_have_all(void) {
    uint64_t lo, followed = 0, counted = 0;
    bool is_claimed = false;
    const struct timespec short_time = {0, 30000000};
    disruptor_graph graph = DISRUPTOR_GRAPH(events);
    disruptor_handle(&graph, "fails", fails_at_one, &is_claimed, NULL);
    disruptor_handle(&graph, "counts", counts, &counted, NULL);
    disruptor_handle(&graph, "follows", counts, &followed, "fails");
    EXPECT(disruptor_start(&graph) == DISRUPTOR_OK);
    EXPECT(disruptor_next(&graph, 2, &lo) == DISRUPTOR_OK && disruptor_send(&graph, lo, 2) == DISRUPTOR_OK);
    EXPECT(disruptor_next(&graph, 1, &lo) == DISRUPTOR_OK);
    __atomic_store_n(&is_claimed, true, __ATOMIC_SEQ_CST);
    thrd_sleep(&short_time, NULL);
    /* (the claim that is open is published) */
    EXPECT(disruptor_finish(&graph) == 5 && strcmp(graph.failed, "fails") == 0);
    EXPECT(followed == 1 && counted == 3);
}

static int fails_at_500(void *own, void *event, uint64_t sequence, bool is_last) {
    (void)own, (void)event, (void)is_last;
    return sequence == 500 ? 42 : 0;
}

static int is_slow(void *own, void *event, uint64_t sequence, bool is_last) {
    const struct timespec long_time = {0, 100000000};
    (void)own, (void)event, (void)is_last;
    if (sequence == 100) thrd_sleep(&long_time, NULL);
    return 0;
}

/* One that it follows fails while the other one is on its way. */
static void who_follows_two_has_what_both_completed_up_to_the_cut(void) {
    uint64_t lo, followed = 0;
    disruptor_graph graph = DISRUPTOR_GRAPH(many);
    disruptor_handle(&graph, "fails", fails_at_500, NULL, NULL);
    disruptor_handle(&graph, "slow", is_slow, NULL, NULL);
    disruptor_handle(&graph, "follows", counts, &followed, "fails slow");
    EXPECT(disruptor_start(&graph) == DISRUPTOR_OK);
    EXPECT(disruptor_next(&graph, 800, &lo) == DISRUPTOR_OK && disruptor_send(&graph, lo, 800) == DISRUPTOR_OK);
    EXPECT(disruptor_finish(&graph) == 42 && strcmp(graph.failed, "fails") == 0);
    EXPECT(followed == 500 && disruptor_completed(&graph, "slow") == 800);
}

static void a_handler_after_the_start_is_refused(void) {
    uint64_t lo, counted = 0, late = 0;
    disruptor_graph graph = DISRUPTOR_GRAPH(events);
    disruptor_handle(&graph, "counts", counts, &counted, NULL);
    for (uint64_t round = 0; round < 2; round++) {
        EXPECT(disruptor_start(&graph) == DISRUPTOR_OK);
        EXPECT(disruptor_handle(&graph, "late", counts, &late, "counts") == DISRUPTOR_STILL_OPEN);
        EXPECT(is_at_fault(&graph, "late", "the graph has started"));
        EXPECT(disruptor_start(&graph) == DISRUPTOR_STILL_OPEN);
        EXPECT(is_at_fault(&graph, "the graph", "it has started: finish it first"));
        EXPECT(disruptor_next(&graph, 1, &lo) == DISRUPTOR_OK && disruptor_send(&graph, lo, 1) == DISRUPTOR_OK);
        EXPECT(disruptor_finish(&graph) == 0 && counted == round + 1 && late == 0);
    }
    /* (once it is finished it may have more) */
    EXPECT(disruptor_handle(&graph, "late", counts, &late, "counts") == DISRUPTOR_OK);
    EXPECT(disruptor_start(&graph) == DISRUPTOR_OK);
    EXPECT(disruptor_next(&graph, 1, &lo) == DISRUPTOR_OK && disruptor_finish(&graph) == 0 && late == 1);
}

/* (a ring over what a pointer leads to has the size that it is told) */
static void a_graph_lies_over_a_pointer_too(void) {
    uint64_t lo = 0, counted = 0, *const own = malloc(8 * sizeof *own);
    disruptor_graph graph = disruptor_graph_of(own, 8, sizeof *own);
    disruptor_handle(&graph, "counts", counts, &counted, NULL);
    EXPECT(own && disruptor_start(&graph) == DISRUPTOR_OK && disruptor_next(&graph, 8, &lo) == DISRUPTOR_OK);
    EXPECT(disruptor_slot(&graph, lo + 7) == own + 7 && disruptor_finish(&graph) == 0 && counted == 8);
    free(own);
}

static disruptor_graph stopped;
static bool is_over;

static void *stops(void *nothing) {
    while (!__atomic_load_n(&is_over, __ATOMIC_SEQ_CST)) disruptor_stop(&stopped);
    return nothing;
}

/* One that stops the graph goes on while that is started and finished. */
static void a_graph_may_be_stopped_at_any_time(void) {
    uint64_t lo;
    pthread_t thread;
    const disruptor_graph graph = DISRUPTOR_GRAPH(events);
    stopped = graph;
    disruptor_handle(&stopped, "none", none, NULL, NULL);
    EXPECT(pthread_create(&thread, NULL, stops, NULL) == 0);
    for (int round = 0; round < 100; round++) {
        EXPECT(disruptor_start(&stopped) == DISRUPTOR_OK);
        while (!disruptor_next(&stopped, 1, &lo)) disruptor_send(&stopped, lo, 1);
        EXPECT(disruptor_finish(&stopped) == 0);
    }
    __atomic_store_n(&is_over, true, __ATOMIC_SEQ_CST);
    EXPECT(pthread_join(thread, NULL) == 0);
}

static void a_deadline_ends_a_wait(void) {
    const uint64_t upstreams[1] = {0}, short_time = 20000000;
    uint64_t lo;
    disruptor_sender sender = DISRUPTOR_NEW;
    disruptor_receiver receiver = DISRUPTOR_NEW;
    disruptor_halter halter = DISRUPTOR_NEW;
    disruptor_offer offer;
    disruptor_waiting sends = disruptor_waits(4), receives = disruptor_waits(4);
    EXPECT(disruptor_open_slots(4, DISRUPTOR_MAX_LIMIT, upstreams, 1, &sender, &receiver, 1, &halter) == DISRUPTOR_OK);
    const uint64_t begun = disruptor_now();
    EXPECT(disruptor_poll_slots_within(&receiver, 4, &offer, &receives, short_time) == DISRUPTOR_OK);
    EXPECT(offer.kind == DISRUPTOR_IDLE && disruptor_now() - begun >= short_time);
    EXPECT(disruptor_claim_within(&sender, 4, &lo, &sends, short_time) == DISRUPTOR_OK);
    EXPECT(disruptor_claim_within(&sender, 1, &lo, &sends, short_time) == DISRUPTOR_NO_ROOM);
    EXPECT(disruptor_claim_within(&sender, 5, &lo, &sends, DISRUPTOR_FOREVER) == DISRUPTOR_BAD_COUNT);
    EXPECT(disruptor_publish_slots(&sender, 0, 3) == DISRUPTOR_OK);
    EXPECT(disruptor_poll_slots_within(&receiver, 4, &offer, &receives, 0) == DISRUPTOR_OK && offer.count == 4);
    EXPECT(disruptor_close(&sender) == DISRUPTOR_OK);
    EXPECT(disruptor_poll_slots_within(&receiver, 4, &offer, &receives, DISRUPTOR_FOREVER) == DISRUPTOR_OK);
    EXPECT(offer.kind == DISRUPTOR_DRAINED);
    disruptor_free(&sender);
    disruptor_free(&receiver);
    disruptor_free(&halter);
}

/* (polls of events that the ring has wait alike) */
static void a_deadline_ends_a_wait_for_words_and_bytes(void) {
    const uint64_t upstreams[1] = {0}, short_time = 20000000;
    uint64_t lo;
    disruptor_event words[4] = {{5, 6}}, found[4];
    disruptor_offer offer;
    disruptor_waiting waiting = disruptor_waits(4);
    for (int of_bytes = 0; of_bytes < 2; of_bytes++) {
        disruptor_sender sender = DISRUPTOR_NEW;
        disruptor_receiver receiver = DISRUPTOR_NEW;
        disruptor_halter halter = DISRUPTOR_NEW;
        EXPECT(of_bytes ? !disruptor_open_bytes(4, 9, sizeof *words, upstreams, 1, &sender, &receiver, 1, &halter)
                        : !disruptor_open(4, 9, upstreams, 1, &sender, &receiver, 1, &halter));
#define POLL(time) (of_bytes ? disruptor_poll_bytes_within(&receiver, 4, &offer, &waiting, time) \
                             : disruptor_poll_within(&receiver, found, 4, &offer, &waiting, time))
        const uint64_t begun = disruptor_now();
        EXPECT(POLL(short_time) == DISRUPTOR_OK && offer.kind == DISRUPTOR_IDLE && disruptor_now() - begun >= short_time);
        EXPECT(!disruptor_claim(&sender, 1, &lo));
        EXPECT(!(of_bytes ? disruptor_write_bytes(&sender, lo, words, sizeof *words) : disruptor_write(&sender, lo, words)));
        EXPECT(!disruptor_publish(&sender, lo, lo) && POLL(DISRUPTOR_FOREVER) == DISRUPTOR_OK && offer.count == 1);
        EXPECT(!of_bytes || !disruptor_read_bytes(&receiver, lo, found, sizeof *found));
        EXPECT(found[0].first == 5 && found[0].second == 6);
        EXPECT(!disruptor_close(&sender) && POLL(DISRUPTOR_FOREVER) == DISRUPTOR_OK && offer.kind == DISRUPTOR_DRAINED);
        disruptor_free(&sender), disruptor_free(&receiver), disruptor_free(&halter);
        EXPECT(POLL(DISRUPTOR_FOREVER) == DISRUPTOR_NOT_OPEN);
#undef POLL
    }
}

/* (memory for a graph is aligned as its type is) */
static void any_thread_asks_how_many_events_are_sent(void) {
    uint64_t lo;
    disruptor_graph *graph = aligned_alloc(_Alignof(disruptor_graph), sizeof *graph);
    EXPECT(graph);
    *graph = disruptor_graph_of(events, 4, sizeof *events);
    disruptor_handle(graph, "none", none, NULL, NULL);
    EXPECT(disruptor_sent(graph) == 0 && disruptor_start(graph) == DISRUPTOR_OK);
    EXPECT(disruptor_next(graph, 3, &lo) == DISRUPTOR_OK && disruptor_sent(graph) == 0);
    EXPECT(disruptor_send(graph, lo, 3) == DISRUPTOR_OK && disruptor_sent(graph) == 3);
    EXPECT(disruptor_finish(graph) == 0 && disruptor_sent(graph) == 0);
    free(graph);
}

int main(void) {
    alarm(100);
    a_deadline_ends_a_wait();
    a_deadline_ends_a_wait_for_words_and_bytes();
    any_thread_asks_how_many_events_are_sent();
    graphs_are_refused();
    each_follows_its_own();
    a_handler_that_fails_halts_the_ring();
    who_follows_has_what_was_completed_and_others_have_all();
    who_follows_two_has_what_both_completed_up_to_the_cut();
    a_handler_whose_thread_ends_halts_the_ring();
    a_graph_that_failed_may_be_started_again();
    a_handler_after_the_start_is_refused();
    a_graph_lies_over_a_pointer_too();
    a_graph_may_be_stopped_at_any_time();
    a_handler_may_keep_its_thread_on_a_processor();
    puts("each test passed");
    return 0;
}
