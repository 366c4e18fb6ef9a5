/* LMAX's own tests of what the calls do too, each by the name of its class and method in LMAX's repository, on rings of one sender and of
 * several where both have it. */
#include "disruptor.h"
#include <pthread.h>
#include <stdio.h>
#include <stdlib.h>

enum { SIZE = 16, MOST = 64, HANDLERS = 4, SENDERS = 4 };

static disruptor_sender senders[SENDERS];
static disruptor_receiver receivers[HANDLERS];
static disruptor_halter halter;
static uint64_t size, slots[MOST];
static bool of_several;
static const char *test;

static void expect(bool holds, const char *what, int line) {
    if (holds) return;
    printf("FAILED: %s, of %s, line %d: %s\n", test, of_several ? "several" : "one", line, what);
    exit(1);
}
#define EXPECT(fact) expect(fact, #fact, __LINE__)

static void let_go(void) {
    for (size_t k = 0; k < SENDERS; k++) disruptor_free(&senders[k]);
    for (size_t k = 0; k < HANDLERS; k++) disruptor_free(&receivers[k]);
    disruptor_free(&halter);
}

static void open_ring(uint64_t slots_of_it, size_t count, const uint64_t *upstreams) {
    let_go();
    size = slots_of_it;
    if (of_several)
        EXPECT(!disruptor_open_several_slots(size, DISRUPTOR_MAX_LIMIT, upstreams, count, senders, SENDERS, receivers, count, &halter));
    else
        EXPECT(!disruptor_open_slots(size, DISRUPTOR_MAX_LIMIT, upstreams, count, senders, receivers, count, &halter));
}
static const uint64_t one_handler[1] = {0}, two_handlers[2] = {0, 0}, a_pair[2] = {0, 1}, three_and_one[4] = {0, 0, 0, 7};

static bool has_room(uint64_t n) {
    uint64_t lo;
    const uint32_t refused = disruptor_claim(&senders[0], n, &lo);
    EXPECT(refused == DISRUPTOR_OK || refused == DISRUPTOR_NO_ROOM);
    if (!refused) EXPECT(!disruptor_publish_slots(&senders[0], lo, lo + n - 1));
    return !refused;
}

static uint64_t claim(uint64_t n) {
    uint64_t lo = UINT64_MAX;
    EXPECT(!disruptor_claim(&senders[0], n, &lo));
    return lo;
}

static void publish(uint64_t lo, uint64_t n) {
    EXPECT(!disruptor_publish_slots(&senders[0], lo, lo + n - 1));
}

/* Fills n events with their sequences. */
static void send_events(uint64_t n) {
    const uint64_t lo = claim(n);
    for (uint64_t s = lo; s < lo + n; s++) slots[DISRUPTOR_SLOT(s, size)] = s;
    publish(lo, n);
}

static disruptor_offer poll(size_t k, uint64_t room) {
    disruptor_offer offer = {99, 0, 0, 0};
    EXPECT(!disruptor_poll_slots(&receivers[k], room, &offer));
    return offer;
}

static void complete(size_t k, uint64_t upto) {
    EXPECT(!disruptor_complete(&receivers[k], upto));
}

/* Has handler k take n events, which have what was sent, and complete them. */
static void handle(size_t k, uint64_t n) {
    const disruptor_offer offer = poll(k, n);
    EXPECT(offer.kind == DISRUPTOR_BATCH && offer.count == n);
    for (uint64_t s = offer.first; s < offer.first + n; s++) EXPECT(slots[DISRUPTOR_SLOT(s, size)] == s);
    complete(k, offer.first + n);
}

static void begins_with_the_first(void) {
    open_ring(SIZE, 1, one_handler);
    EXPECT(poll(0, 1).kind == DISRUPTOR_IDLE && claim(1) == 0);
}

static void claims_a_batch(void) {
    open_ring(SIZE, 1, one_handler);
    EXPECT(claim(4) == 0 && claim(1) == 4);
}

static void has_capacity(void) {
    open_ring(SIZE, 1, one_handler);
    EXPECT(has_room(1) && !has_room(SIZE) && has_room(SIZE - 1));
}

static void has_no_capacity(void) {
    uint64_t lo = 7;
    open_ring(SIZE, 1, one_handler);
    EXPECT(has_room(SIZE) && !has_room(1));
    EXPECT(disruptor_claim(&senders[0], 1, &lo) == DISRUPTOR_NO_ROOM && lo == 7);
}

static void counts_down_capacity(void) {
    open_ring(SIZE, 1, one_handler);
    for (uint64_t sent = 1; sent <= SIZE; sent++) {
        uint64_t lo;
        send_events(1);
        EXPECT(disruptor_claim(&senders[0], SIZE - sent + 1, &lo) == DISRUPTOR_NO_ROOM);
    }
    handle(0, SIZE);
    EXPECT(has_room(SIZE));
}

static void *claims_and_publishes(void *begun) {
    uint64_t lo;
    disruptor_waiting waiting = disruptor_waits(size);
    __atomic_store_n((bool *)begun, true, __ATOMIC_SEQ_CST);
    const uint32_t refused = disruptor_claim_within(&senders[0], 1, &lo, &waiting, DISRUPTOR_FOREVER);
    if (!refused) slots[DISRUPTOR_SLOT(lo, size)] = lo, disruptor_publish_slots(&senders[0], lo, lo);
    return (void *)(uintptr_t)refused;
}

static pthread_t start(void *(*work)(void *)) {
    static bool begun;
    pthread_t thread;
    begun = false;
    EXPECT(!pthread_create(&thread, NULL, work, &begun));
    while (!__atomic_load_n(&begun, __ATOMIC_SEQ_CST)) sched_yield();
    return thread;
}

static uint32_t result_of(pthread_t thread) {
    void *result;
    EXPECT(!pthread_join(thread, &result));
    return (uint32_t)(uintptr_t)result;
}

static void nap(void) {
    uint64_t begun = 0;
    disruptor_waiting waiting = disruptor_waits(1);
    while (!disruptor_is_over(&waiting, 5000000, &begun)) {}
}

static void holds_up_the_publisher(void) {
    open_ring(SIZE, 1, one_handler);
    send_events(SIZE);
    const pthread_t thread = start(claims_and_publishes);
    nap();
    handle(0, SIZE);
    EXPECT(result_of(thread) == DISRUPTOR_OK);
    handle(0, 1);
}

static void overtakes_nobody(void) {
    open_ring(SIZE, 1, one_handler);
    send_events(SIZE);
    const pthread_t thread = start(claims_and_publishes);
    nap();
    const disruptor_offer offer = poll(0, MOST);
    EXPECT(offer.count == SIZE && poll(0, MOST).kind == DISRUPTOR_IDLE);
    nap();
    EXPECT(slots[0] == 0);
    complete(0, 1);
    EXPECT(result_of(thread) == DISRUPTOR_OK && slots[0] == SIZE);
    EXPECT(poll(0, MOST).count == 1);
}

static void is_unavailable_until_published(void) {
    open_ring(SIZE, 1, one_handler);
    const uint64_t lo = claim(6);
    EXPECT(poll(0, MOST).kind == (of_several ? DISRUPTOR_GATING : DISRUPTOR_IDLE));
    publish(lo, 6);
    EXPECT(poll(0, MOST).count == 6);
}

static void waits_on_publication(void) {
    open_ring(SIZE, 1, one_handler);
    const uint64_t lo = claim(10);
    for (uint64_t s = lo; s < lo + 10; s++) {
        const uint32_t none = poll(0, MOST).kind;
        EXPECT(none == (of_several ? DISRUPTOR_GATING : DISRUPTOR_IDLE));
        publish(s, 1);
        const disruptor_offer offer = poll(0, MOST);
        EXPECT(offer.first == s && offer.count == 1);
    }
}

static void tries(void) {
    open_ring(SIZE, 1, one_handler);
    for (size_t k = 0; k < SIZE; k++) EXPECT(has_room(1));
    EXPECT(!has_room(1));
}

static void takes_no_bulk_below_zero(void) {
    uint64_t lo;
    open_ring(SIZE, 1, one_handler);
    EXPECT(disruptor_claim(&senders[0], (uint64_t)-1, &lo) == DISRUPTOR_BAD_COUNT);
}

static void takes_no_bulk_of_zero(void) {
    uint64_t lo;
    open_ring(SIZE, 1, one_handler);
    EXPECT(disruptor_claim(&senders[0], 0, &lo) == DISRUPTOR_BAD_COUNT && claim(1) == 0);
}

static void takes_no_batch_above_the_size(void) {
    uint64_t lo;
    open_ring(SIZE, 1, one_handler);
    EXPECT(disruptor_claim(&senders[0], SIZE + 1, &lo) == DISRUPTOR_BAD_COUNT && poll(0, 1).kind == DISRUPTOR_IDLE && has_room(SIZE));
}

static void leaves_the_cursor(void) {
    disruptor_counts before, after;
    open_ring(SIZE, 1, one_handler);
    send_events(SIZE);
    EXPECT(!disruptor_progress(&senders[0], &before) && !has_room(1) && !disruptor_progress(&senders[0], &after));
    EXPECT(before.begun == SIZE && after.begun == SIZE && after.done == SIZE);
}

static void is_available_where_published(void) {
    open_ring(SIZE, 1, one_handler);
    EXPECT(claim(7) == 0);
    publish(3, 1), publish(5, 1);
    EXPECT(poll(0, MOST).kind == DISRUPTOR_GATING);
    publish(0, 3);
    EXPECT(poll(0, MOST).count == 4 && poll(0, MOST).kind == DISRUPTOR_GATING);
    publish(4, 1);
    EXPECT(poll(0, MOST).count == 2 && poll(0, MOST).kind == DISRUPTOR_GATING);
    publish(6, 1);
    EXPECT(poll(0, MOST).count == 1 && poll(0, MOST).kind == DISRUPTOR_IDLE);
}

static void claims_and_gets(void) {
    open_ring(SIZE, 1, one_handler);
    slots[claim(1)] = 2701;
    publish(0, 1);
    const disruptor_offer offer = poll(0, MOST);
    EXPECT(offer.first == 0 && offer.count == 1 && offer.end == 1 && slots[0] == 2701);
}

static void *takes_one(void *begun) {
    disruptor_offer offer = {99, 0, 0, 0};
    disruptor_waiting waiting = disruptor_waits(size);
    __atomic_store_n((bool *)begun, true, __ATOMIC_SEQ_CST);
    disruptor_poll_slots_within(&receivers[0], 1, &offer, &waiting, DISRUPTOR_FOREVER);
    return (void *)(uintptr_t)(offer.kind == DISRUPTOR_BATCH ? 100 + slots[0] : offer.kind);
}

static void claims_and_gets_in_a_thread(void) {
    open_ring(SIZE, 1, one_handler);
    const pthread_t thread = start(takes_one);
    slots[claim(1)] = 21;
    publish(0, 1);
    EXPECT(result_of(thread) == 121);
}

static void claims_and_gets_several(void) {
    open_ring(SIZE, 1, one_handler);
    for (size_t k = 0; k < SIZE; k++) send_events(1);
    handle(0, SIZE);
}

static void wraps(void) {
    open_ring(SIZE, 1, one_handler);
    for (uint64_t s = 0; s < SIZE + 1000; s++) {
        if (s >= SIZE) handle(0, 1);
        send_events(1);
    }
    handle(0, SIZE);
}

static void prevents_wrapping(void) {
    open_ring(4, 1, one_handler);
    for (size_t k = 0; k < 4; k++) send_events(1);
    EXPECT(!has_room(1));
    handle(0, 1);
    EXPECT(has_room(1) && !has_room(1));
}

static void publishes_batches(void) {
    open_ring(SIZE, 1, one_handler);
    send_events(3), send_events(1), send_events(SIZE - 4);
    handle(0, SIZE);
}

static void waits_where_work_is_ahead(void) {
    open_ring(SIZE, 4, three_and_one);
    send_events(10);
    for (size_t k = 0; k < 3; k++) handle(k, 10);
    handle(3, 10);
}

static void waits_where_workers_are_blocked(void) {
    open_ring(SIZE, 4, three_and_one);
    send_events(10);
    EXPECT(poll(3, MOST).kind == DISRUPTOR_GATING);
    handle(0, 10), handle(1, 10);
    EXPECT(poll(3, MOST).kind == DISRUPTOR_GATING);
    handle(2, 4);
    handle(3, 4);
    EXPECT(poll(3, MOST).kind == DISRUPTOR_GATING);
    handle(2, 6);
    handle(3, 6);
}

static void is_told_of_a_halt(void) {
    open_ring(SIZE, 1, one_handler);
    const pthread_t thread = start(takes_one);
    EXPECT(!disruptor_halt(&halter));
    if (!of_several) EXPECT(!disruptor_close(&senders[0]));
    EXPECT(result_of(thread) == DISRUPTOR_DRAINED);
}

static void a_sender_is_told_of_a_halt(void) {
    open_ring(SIZE, 1, one_handler);
    send_events(SIZE);
    const pthread_t thread = start(claims_and_publishes);
    EXPECT(!disruptor_halt(&halter) && result_of(thread) == DISRUPTOR_HALTED);
}

static void tells_batches_by_their_sizes(void) {
    open_ring(SIZE, 1, one_handler);
    send_events(3);
    disruptor_offer offer = poll(0, MOST);
    EXPECT(offer.count == 3 && offer.end == 1);
    send_events(5);
    offer = poll(0, 3);
    EXPECT(offer.first == 3 && offer.count == 3 && offer.end == 0);
    offer = poll(0, 3);
    EXPECT(offer.first == 6 && offer.count == 2 && offer.end == 1);
    offer = poll(0, 3);
    EXPECT(offer.kind == DISRUPTOR_IDLE && offer.count == 0);
}

static void polls(void) {
    open_ring(4, 2, a_pair);
    EXPECT(poll(1, MOST).kind == DISRUPTOR_IDLE);
    send_events(1);
    EXPECT(poll(1, MOST).kind == DISRUPTOR_GATING);
    handle(0, 1);
    handle(1, 1);
    EXPECT(poll(1, MOST).kind == DISRUPTOR_IDLE);
}

static void polls_a_full_ring(void) {
    open_ring(4, 1, one_handler);
    send_events(4);
    handle(0, 4);
}

static void reports_progress(void) {
    open_ring(4, 1, one_handler);
    send_events(4);
    EXPECT(poll(0, MOST).count == 4 && !has_room(1));
    complete(0, 1);
    EXPECT(has_room(1) && !has_room(1));
    complete(0, 4);
    EXPECT(has_room(3));
}

static void waits_for_the_slowest(void) {
    open_ring(4, 2, two_handlers);
    send_events(4);
    handle(0, 4);
    EXPECT(!has_room(1));
    handle(1, 2);
    EXPECT(has_room(2) && !has_room(1));
}

enum { EACH = 2000 };

static void *sends_each(void *given) {
    disruptor_waiting waiting = disruptor_waits(size);
    for (uint64_t k = 0, lo; k < EACH; k++) {
        if (disruptor_claim_within(given, 1, &lo, &waiting, DISRUPTOR_FOREVER)) return given;
        slots[DISRUPTOR_SLOT(lo, size)] = lo;
        if (disruptor_publish_slots(given, lo, lo)) return given;
    }
    return NULL;
}

/* Answers how many events were not those that were sent. */
static void *receives_all(void *given) {
    disruptor_offer offer;
    disruptor_waiting waiting = disruptor_waits(size);
    uintptr_t wrong = 0;
    uint64_t next = 0;
    while (!disruptor_poll_slots_within(given, MOST, &offer, &waiting, DISRUPTOR_FOREVER) && offer.kind == DISRUPTOR_BATCH) {
        for (uint64_t s = offer.first; s < offer.first + offer.count; s++) wrong += s != next++ || slots[DISRUPTOR_SLOT(s, size)] != s;
        wrong += disruptor_complete(given, next) != DISRUPTOR_OK;
    }
    return (void *)(wrong + (next != SENDERS * EACH));
}

static void handles_lots_of_threads(void) {
    pthread_t sending[SENDERS], receiving[HANDLERS];
    open_ring(MOST, 4, three_and_one);
    for (size_t k = 0; k < HANDLERS; k++) EXPECT(!pthread_create(&receiving[k], NULL, receives_all, &receivers[k]));
    for (size_t k = 0; k < SENDERS; k++) EXPECT(!pthread_create(&sending[k], NULL, sends_each, &senders[k]));
    for (size_t k = 0; k < SENDERS; k++) EXPECT(result_of(sending[k]) == 0);
    EXPECT(!disruptor_halt(&halter));
    for (size_t k = 0; k < HANDLERS; k++) EXPECT(result_of(receiving[k]) == 0);
}

enum { ONE = 1, SEVERAL = 2, BOTH = 3 };
static const struct { const char *name; void (*run)(void); unsigned kinds; } tests[] = {
    {"SequencerTest.shouldStartWithInitialValue", begins_with_the_first, BOTH},
    {"SequencerTest.shouldBatchClaim", claims_a_batch, BOTH},
    {"SequencerTest.shouldIndicateHasAvailableCapacity", has_capacity, BOTH},
    {"SequencerTest.shouldIndicateNoAvailableCapacity", has_no_capacity, BOTH},
    {"SequencerTest.shouldThrowInsufficientCapacityExceptionWhenSequencerIsFull", has_no_capacity, BOTH},
    {"SequencerTest.shouldCalculateRemainingCapacity", counts_down_capacity, BOTH},
    {"SequencerTest.shouldHoldUpPublisherWhenBufferIsFull", holds_up_the_publisher, BOTH},
    {"SequencerTest.shoundNotBeAvailableUntilPublished", is_unavailable_until_published, BOTH},
    {"SequencerTest.shouldWaitOnPublication", waits_on_publication, BOTH},
    {"SequencerTest.shouldTryNext", tries, BOTH},
    {"SequencerTest.shouldNotAllowBulkNextLessThanZero", takes_no_bulk_below_zero, BOTH},
    {"SequencerTest.shouldNotAllowBulkTryNextLessThanZero", takes_no_bulk_below_zero, BOTH},
    {"SequencerTest.shouldNotAllowBulkNextOfZero", takes_no_bulk_of_zero, BOTH},
    {"SequencerTest.shouldNotAllowBulkTryNextOfZero", takes_no_bulk_of_zero, BOTH},
    {"SingleProducerSequencerTest.shouldNotUpdateCursorDuringHasAvailableCapacity", leaves_the_cursor, ONE},
    {"MultiProducerSequencerTest.shouldOnlyAllowMessagesToBeAvailableIfSpecificallyPublished", is_available_where_published, SEVERAL},
    {"RingBufferTest.shouldClaimAndGet", claims_and_gets, BOTH},
    {"RingBufferTest.shouldClaimAndGetInSeparateThread", claims_and_gets_in_a_thread, BOTH},
    {"RingBufferTest.shouldClaimAndGetMultipleMessages", claims_and_gets_several, BOTH},
    {"RingBufferTest.shouldWrap", wraps, BOTH},
    {"RingBufferTest.shouldPreventWrapping", prevents_wrapping, BOTH},
    {"RingBufferTest.shouldReturnFalseIfBufferIsFull", prevents_wrapping, BOTH},
    {"RingBufferTest.shouldPreventProducersOvertakingEventProcessorsWrapPoint", overtakes_nobody, BOTH},
    {"RingBufferTest.shouldPublishEvents", publishes_batches, BOTH},
    {"RingBufferTest.shouldNotPublishEventsIfBatchIsLargerThanRingBuffer", takes_no_batch_above_the_size, BOTH},
    {"RingBufferTest.shouldNotTryPublishEventsIfBatchIsLargerThanRingBuffer", takes_no_batch_above_the_size, BOTH},
    {"SequenceBarrierTest.shouldWaitForWorkCompleteWhereCompleteWorkThresholdIsAhead", waits_where_work_is_ahead, BOTH},
    {"SequenceBarrierTest.shouldWaitForWorkCompleteWhereAllWorkersAreBlockedOnRingBuffer", waits_where_workers_are_blocked, BOTH},
    {"SequenceBarrierTest.shouldWaitForWorkCompleteWhereCompleteWorkThresholdIsBehind", waits_where_workers_are_blocked, BOTH},
    {"SequenceBarrierTest.shouldInterruptDuringBusySpin", is_told_of_a_halt, BOTH},
    {"a sender that waits is told of a halt", a_sender_is_told_of_a_halt, BOTH},
    {"BatchEventProcessorTest.reportAccurateBatchSizesAtBatchStartTime", tells_batches_by_their_sizes, BOTH},
    {"BatchEventProcessorTest.shouldNotPassZeroSizeToBatchStartAware", tells_batches_by_their_sizes, BOTH},
    {"MaximumBatchSizeEventProcessorTest.shouldLimitTheBatchToConfiguredMaximumBatchSize", tells_batches_by_their_sizes, BOTH},
    {"EventPollerTest.shouldPollForEvents", polls, BOTH},
    {"EventPollerTest.shouldSuccessfullyPollWhenBufferIsFull", polls_a_full_ring, BOTH},
    {"SequenceReportingCallbackTest.shouldReportProgressByUpdatingSequenceViaCallback", reports_progress, BOTH},
    {"FixedSequenceGroupTest.shouldReturnMinimumOf2Sequences", waits_for_the_slowest, BOTH},
    {"DisruptorStressTest.shouldHandleLotsOfThreads", handles_lots_of_threads, SEVERAL},
};

int main(void) {
    const size_t count = sizeof tests / sizeof *tests;
    for (size_t k = 0; k < 2 * count; k++) {
        of_several = k % 2 == 1;
        test = tests[k / 2].name;
        if (tests[k / 2].kinds & (of_several ? SEVERAL : ONE)) tests[k / 2].run();
    }
    let_go();
    puts("each of LMAX's tests passed");
    return 0;
}
