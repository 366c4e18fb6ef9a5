/* LMAX's own tests of processors and of its DSL that graphs of handlers have too, each by the name of its class and method. */
#include "disruptor_threads.h"
#include <stdio.h>
#include <stdlib.h>

static const char *test;

static void expect(bool holds, const char *what, int line) {
    if (holds) return;
    printf("FAILED: %s, line %d: %s\n", test, line, what);
    exit(1);
}
#define EXPECT(fact) expect(fact, #fact, __LINE__)

static void nap(void) {
    uint64_t begun = 0;
    disruptor_waiting waiting = disruptor_waits(1);
    while (!disruptor_is_over(&waiting, 5000000, &begun)) {}
}

/* What a handler had, the two before it, and the count with which it fails, or 0. While it is held it handles nothing. */
struct seen {
    uint64_t count, ends, fails_with;
    bool is_held;
    struct seen *before[2];
};

static bool has_had(struct seen *before, uint64_t sequence) {
    return !before || __atomic_load_n(&before->count, __ATOMIC_SEQ_CST) > sequence;
}

static int sees(void *own, void *event, uint64_t sequence, bool is_last) {
    struct seen *seen = own;
    while (__atomic_load_n(&seen->is_held, __ATOMIC_SEQ_CST)) sched_yield();
    if (sequence + 1 == seen->fails_with) return 7;
    if (sequence != seen->count || *(uint64_t *)event != sequence) return 8;
    if (!has_had(seen->before[0], sequence) || !has_had(seen->before[1], sequence)) return 9;
    seen->ends += is_last;
    __atomic_store_n(&seen->count, sequence + 1, __ATOMIC_SEQ_CST);
    return 0;
}

static void release(struct seen *seen) {
    __atomic_store_n(&seen->is_held, false, __ATOMIC_SEQ_CST);
}

static uint64_t count_of(struct seen *seen) {
    return __atomic_load_n(&seen->count, __ATOMIC_SEQ_CST);
}

static uint64_t events[4];

static void send_by(disruptor_graph *graph, uint64_t n) {
    uint64_t lo;
    EXPECT(!disruptor_next(graph, n, &lo));
    for (uint64_t s = lo; s < lo + n; s++) *(uint64_t *)disruptor_slot(graph, s) = s;
    EXPECT(!disruptor_send(graph, lo, n));
}

static void calls_in_order(void) {
    struct seen seen = {0};
    disruptor_graph graph = DISRUPTOR_GRAPH(events);
    disruptor_handle(&graph, "sees", sees, &seen, NULL);
    EXPECT(!disruptor_start(&graph));
    send_by(&graph, 3);
    EXPECT(disruptor_finish(&graph) == 0 && seen.count == 3 && seen.ends == 1);
}

static void hands_out_what_was_thrown(void) {
    uint64_t lo;
    struct seen seen = {.fails_with = 3};
    disruptor_graph graph = DISRUPTOR_GRAPH(events);
    disruptor_handle(&graph, "sees", sees, &seen, NULL);
    EXPECT(!disruptor_start(&graph));
    send_by(&graph, 4);
    EXPECT(disruptor_next(&graph, 4, &lo) == DISRUPTOR_HALTED);
    EXPECT(disruptor_finish(&graph) == 7 && strcmp(graph.failed, "sees") == 0 && disruptor_completed(&graph, "sees") == 2);
}

static void shows_all_to_each_of_the_first(void) {
    struct seen one = {0}, other = {0};
    disruptor_graph graph = DISRUPTOR_GRAPH(events);
    disruptor_handle(&graph, "one", sees, &one, NULL);
    disruptor_handle(&graph, "other", sees, &other, NULL);
    EXPECT(!disruptor_start(&graph));
    for (size_t k = 0; k < 50; k++) send_by(&graph, 2);
    EXPECT(disruptor_finish(&graph) == 0 && one.count == 100 && other.count == 100);
}

static void waits_for_all_of_the_first(void) {
    struct seen one = {.is_held = true}, other = {.is_held = true}, after = {.before = {&one, &other}};
    disruptor_graph graph = DISRUPTOR_GRAPH(events);
    disruptor_handle(&graph, "one", sees, &one, NULL);
    disruptor_handle(&graph, "other", sees, &other, NULL);
    disruptor_handle(&graph, "after", sees, &after, "one other");
    EXPECT(!disruptor_start(&graph));
    send_by(&graph, 2);
    release(&one);
    nap();
    EXPECT(count_of(&after) == 0);
    release(&other);
    EXPECT(disruptor_finish(&graph) == 0 && after.count == 2);
}

static void blocks_the_producer(void) {
    uint64_t lo;
    struct seen quick = {0}, slow = {.is_held = true};
    disruptor_graph graph = DISRUPTOR_GRAPH(events);
    disruptor_handle(&graph, "quick", sees, &quick, NULL);
    disruptor_handle(&graph, "slow", sees, &slow, NULL);
    EXPECT(!disruptor_start(&graph));
    send_by(&graph, 4);
    EXPECT(disruptor_next_within(&graph, 1, &lo, 5000000) == DISRUPTOR_NO_ROOM);
    release(&slow);
    send_by(&graph, 1);
    EXPECT(disruptor_finish(&graph) == 0 && slow.count == 5);
}

static void follows_whom_it_names(void) {
    struct seen none = {0};
    disruptor_graph graph = DISRUPTOR_GRAPH(events);
    EXPECT(disruptor_handle(&graph, "one", sees, &none, "other") == DISRUPTOR_BAD_ORDER);
    EXPECT(disruptor_start(&graph) == DISRUPTOR_BAD_ORDER);
}

static void says_how_far_a_handler_came(void) {
    struct seen seen = {.is_held = true};
    disruptor_graph graph = DISRUPTOR_GRAPH(events);
    disruptor_handle(&graph, "sees", sees, &seen, NULL);
    EXPECT(!disruptor_start(&graph));
    send_by(&graph, 3);
    EXPECT(disruptor_completed(&graph, "sees") == 0);
    release(&seen);
    EXPECT(disruptor_finish(&graph) == 0 && disruptor_completed(&graph, "sees") == 3);
}

static const struct { const char *name; void (*run)(void); } tests[] = {
    {"BatchEventProcessorTest.shouldCallMethodsInLifecycleOrderForBatch", calls_in_order},
    {"BatchEventProcessorTest.shouldCallExceptionHandlerOnUncaughtException", hands_out_what_was_thrown},
    {"ShutdownOnFatalExceptionTest.shouldShutdownGracefulEvenWithFatalExceptionHandler", hands_out_what_was_thrown},
    {"dsl.DisruptorTest.shouldBatchOfEvents", calls_in_order},
    {"dsl.DisruptorTest.shouldCreateEventProcessorGroupForFirstEventProcessors", shows_all_to_each_of_the_first},
    {"dsl.DisruptorTest.shouldMakeEntriesAvailableToFirstHandlersImmediately", shows_all_to_each_of_the_first},
    {"dsl.DisruptorTest.shouldWaitUntilAllFirstEventProcessorsProcessEventBeforeMakingItAvailableToDependentEventProcessors",
     waits_for_all_of_the_first},
    {"dsl.DisruptorTest.shouldBlockProducerUntilAllEventProcessorsHaveAdvanced", blocks_the_producer},
    {"dsl.DisruptorTest.shouldThrowExceptionIfHandlerIsNotAlreadyConsuming", follows_whom_it_names},
    {"dsl.DisruptorTest.shouldGetSequenceForHandler", says_how_far_a_handler_came},
};

int main(void) {
    for (size_t k = 0; k < sizeof tests / sizeof *tests; k++) {
        test = tests[k].name;
        tests[k].run();
    }
    puts("each of LMAX's tests passed");
    return 0;
}
