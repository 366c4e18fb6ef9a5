/* The numbers that a call may answer, had by misuses of the library: all but no-memory, contended and those of a ring of bytes.
 * A misuse changes nothing. */
#include "disruptor.h"
#include <stdio.h>
#include <stdlib.h>
#include <string.h>

static void expect(const char *call, uint32_t is, uint32_t wanted) {
    if (is == wanted) return;
    printf("%s: %u (%s), and not %u (%s)\n", call, is, disruptor_text(is), wanted, disruptor_text(wanted));
    exit(1);
}

static disruptor_sender sender;
static disruptor_receiver receivers[17];
static disruptor_halter halter;

static uint32_t open_ring(uint64_t size, uint64_t limit, size_t handlers, size_t count, uint64_t mask_of_second) {
    uint64_t upstreams[17] = {0, mask_of_second};
    return disruptor_open(size, limit, upstreams, handlers, &sender, receivers, count, &halter);
}

static void free_all(void) {
    disruptor_free(&sender);
    for (size_t k = 0; k < 17; k++) disruptor_free(&receivers[k]);
    disruptor_free(&halter);
}

static void try_opening(void) {
    expect("a size of 3", open_ring(3, 10, 2, 2, 1), DISRUPTOR_BAD_SIZE);
    expect("a size of 2^17", open_ring(131072, 10, 2, 2, 1), DISRUPTOR_BAD_SIZE);
    expect("a limit of 0", open_ring(4, 0, 2, 2, 1), DISRUPTOR_BAD_LIMIT);
    expect("a limit past the greatest", open_ring(4, DISRUPTOR_MAX_LIMIT + 1, 2, 2, 1), DISRUPTOR_BAD_LIMIT);
    expect("no handler", open_ring(4, 10, 0, 0, 0), DISRUPTOR_NO_HANDLERS);
    expect("17 handlers", open_ring(4, 10, 17, 17, 0), DISRUPTOR_TOO_MANY);
    expect("fewer receivers", open_ring(4, 10, 2, 1, 1), DISRUPTOR_BAD_COUNT);
    expect("a handler before itself", open_ring(4, 10, 2, 2, 2), DISRUPTOR_BAD_ORDER);
    expect("no such upstream", open_ring(4, 10, 2, 2, UINT64_C(1) << 63), DISRUPTOR_BAD_ORDER);
    expect("a size of 3, no handler and a limit of 0", open_ring(3, 0, 0, 0, 0), DISRUPTOR_BAD_SIZE);
    expect("a handler before itself, and a limit of 0", open_ring(4, 0, 2, 2, 2), DISRUPTOR_BAD_ORDER);
}

static void try_pairs(void) {
    uint64_t upstreams[3] = {0};
    expect("a pair", disruptor_before(upstreams, 3, 0, 2), DISRUPTOR_OK);
    expect("another", disruptor_before(upstreams, 3, 1, 2), DISRUPTOR_OK);
    expect("the masks", upstreams[0] == 0 && upstreams[1] == 0 && upstreams[2] == 3, 1);
    expect("a pair of one", disruptor_before(upstreams, 3, 1, 1), DISRUPTOR_BAD_ORDER);
    expect("a pair backwards", disruptor_before(upstreams, 3, 2, 1), DISRUPTOR_BAD_ORDER);
    expect("no such handler", disruptor_before(upstreams, 3, 0, 3), DISRUPTOR_BAD_ORDER);
    expect("no masks", disruptor_before(NULL, 3, 0, 1), DISRUPTOR_BAD_POINTER);
    expect("no handlers", disruptor_before(NULL, 0, 0, 1), DISRUPTOR_BAD_ORDER);
}

/* How far an end came. */
static void expect_progress(const char *call, void *handle, uint64_t begun, uint64_t done) {
    disruptor_counts counts = {9, 9};
    expect(call, disruptor_progress(handle, &counts), DISRUPTOR_OK);
    expect(call, counts.begun == begun && counts.done == done, 1);
}

static void try_closed_handles(void) {
    uint64_t lo = 7;
    disruptor_counts counts = {9, 9};
    disruptor_event event = {1, 2};
    disruptor_offer offer = {9, 9, 9, 9};
    expect("a claim by nothing", disruptor_claim(&sender, 1, &lo), DISRUPTOR_NOT_OPEN);
    expect("a write by nothing", disruptor_write(&sender, 0, &event), DISRUPTOR_NOT_OPEN);
    expect("a publication by nothing", disruptor_publish(&sender, 0, 0), DISRUPTOR_NOT_OPEN);
    expect("a close by nothing", disruptor_close(&sender), DISRUPTOR_NOT_OPEN);
    expect("a poll by nothing", disruptor_poll(&receivers[0], &event, 1, &offer), DISRUPTOR_NOT_OPEN);
    expect("a completion by nothing", disruptor_complete(&receivers[0], 0), DISRUPTOR_NOT_OPEN);
    expect("a halt by nothing", disruptor_halt(&halter), DISRUPTOR_NOT_OPEN);
    expect("the progress of nothing", disruptor_progress(&sender, &counts), DISRUPTOR_NOT_OPEN);
    expect("what a refused claim left", lo == 7 && event.first == 1 && offer.kind == 9 && counts.begun == 9, 1);
}

/* Each pointer of each call, null and misaligned, on open handles. */
static void try_pointers(void) {
    static const uint64_t upstreams[2] = {0, 1};
    static disruptor_sender other;
    static disruptor_receiver others[2];
    static disruptor_halter third;
    uint64_t lo = 7;
    disruptor_event event = {1, 2};
    disruptor_offer offer = {9, 9, 9, 9};
    disruptor_counts counts = {9, 9};
    void *crooked = (char *)&lo + 1;
    expect("an opening without masks", disruptor_open(4, 6, NULL, 2, &other, others, 2, &third), DISRUPTOR_BAD_POINTER);
    expect("without a sender", disruptor_open(4, 6, upstreams, 2, NULL, others, 2, &third), DISRUPTOR_BAD_POINTER);
    expect("without receivers", disruptor_open(4, 6, upstreams, 2, &other, NULL, 2, &third), DISRUPTOR_BAD_POINTER);
    expect("without a halter", disruptor_open(4, 6, upstreams, 2, &other, others, 2, NULL), DISRUPTOR_BAD_POINTER);
    expect("of no handlers", disruptor_open(4, 6, NULL, 0, &other, NULL, 0, &third), DISRUPTOR_NO_HANDLERS);
    expect("of more than memory has", disruptor_open(4, 6, upstreams, SIZE_MAX, &other, others, 2, &third), DISRUPTOR_BAD_POINTER);
    expect("a claim by null", disruptor_claim(NULL, 1, &lo), DISRUPTOR_BAD_POINTER);
    expect("a claim to null", disruptor_claim(&sender, 1, NULL), DISRUPTOR_BAD_POINTER);
    expect("a claim to no number's place", disruptor_claim(&sender, 1, crooked), DISRUPTOR_BAD_POINTER);
    expect("a write by null", disruptor_write(NULL, 0, &event), DISRUPTOR_BAD_POINTER);
    expect("a write of null", disruptor_write(&sender, 0, NULL), DISRUPTOR_BAD_POINTER);
    expect("a publication by null", disruptor_publish(NULL, 0, 0), DISRUPTOR_BAD_POINTER);
    expect("a close by null", disruptor_close(NULL), DISRUPTOR_BAD_POINTER);
    expect("a poll by null", disruptor_poll(NULL, &event, 1, &offer), DISRUPTOR_BAD_POINTER);
    expect("a poll to null", disruptor_poll(&receivers[0], NULL, 1, &offer), DISRUPTOR_BAD_POINTER);
    expect("a poll that tells null", disruptor_poll(&receivers[0], &event, 1, NULL), DISRUPTOR_BAD_POINTER);
    expect("a poll to more than memory has", disruptor_poll(&receivers[0], &event, SIZE_MAX / 2, &offer), DISRUPTOR_BAD_POINTER);
    expect("a poll to null, of no room", disruptor_poll(&receivers[0], NULL, 0, &offer), DISRUPTOR_BAD_COUNT);
    expect("a completion by null", disruptor_complete(NULL, 0), DISRUPTOR_BAD_POINTER);
    expect("a halt by null", disruptor_halt(NULL), DISRUPTOR_BAD_POINTER);
    expect("the progress of null", disruptor_progress(NULL, &counts), DISRUPTOR_BAD_POINTER);
    expect("the progress to null", disruptor_progress(&sender, NULL), DISRUPTOR_BAD_POINTER);
    expect("a name to null", (uint32_t)disruptor_name(DISRUPTOR_NO_ROOM, NULL, 16), 7);
    disruptor_free(NULL);
    expect("what all these left", lo == 7 && event.first == 1 && offer.kind == 9 && counts.begun == 9, 1);
    expect("and that nothing is open", disruptor_halt(&third), DISRUPTOR_NOT_OPEN);
}

static void try_sending(void) {
    uint64_t lo;
    disruptor_event event = {5, 6};
    expect("a claim of none", disruptor_claim(&sender, 0, &lo), DISRUPTOR_BAD_COUNT);
    expect("a claim of more than the size", disruptor_claim(&sender, 5, &lo), DISRUPTOR_BAD_COUNT);
    expect("a write of what is not claimed", disruptor_write(&sender, 0, &event), DISRUPTOR_NOT_CLAIMED);
    expect("a claim", disruptor_claim(&sender, 4, &lo), DISRUPTOR_OK);
    expect("its first sequence", (uint32_t)lo, 0);
    expect("a claim of full slots", disruptor_claim(&sender, 1, &lo), DISRUPTOR_NO_ROOM);
    expect("a claim past the limit", disruptor_claim(&sender, 3, &lo), DISRUPTOR_EXHAUSTED);
    expect("a publication of what is not written", disruptor_publish(&sender, 0, 0), DISRUPTOR_NOT_WRITTEN);
    for (uint64_t k = 0; k < 4; k++) expect("a write", disruptor_write(&sender, k, &event), DISRUPTOR_OK);
    expect("a publication out of order", disruptor_publish(&sender, 1, 1), DISRUPTOR_OUT_OF_ORDER);
    expect("a publication backwards", disruptor_publish(&sender, 1, 0), DISRUPTOR_BAD_COUNT);
    expect("a publication past the claim", disruptor_publish(&sender, 0, 4), DISRUPTOR_NOT_CLAIMED);
    expect("a close over a claim", disruptor_close(&sender), DISRUPTOR_OPEN_CLAIM);
    expect("a publication", disruptor_publish(&sender, 0, 2), DISRUPTOR_OK);
    expect("a second one", disruptor_publish(&sender, 0, 2), DISRUPTOR_ALREADY_PUBLISHED);
    expect("a write after it", disruptor_write(&sender, 2, &event), DISRUPTOR_ALREADY_PUBLISHED);
    expect_progress("how far the sender came", &sender, 4, 3);
}

static void try_receiving(void) {
    disruptor_event events[4] = {{0, 0}};
    disruptor_offer offer;
    expect("a poll without room", disruptor_poll(&receivers[0], events, 0, &offer), DISRUPTOR_BAD_COUNT);
    expect("a poll behind another", disruptor_poll(&receivers[1], events, 4, &offer), DISRUPTOR_OK);
    expect("its kind", offer.kind, DISRUPTOR_GATING);
    expect("a poll", disruptor_poll(&receivers[0], events, 2, &offer), DISRUPTOR_OK);
    expect("its kind", offer.kind, DISRUPTOR_BATCH);
    expect("its count", (uint32_t)offer.count, 2);
    expect("its end", offer.end, 0);
    expect("its events", events[1].first == 5 && events[1].second == 6 && events[2].first == 0, 1);
    expect("a completion of what is not taken", disruptor_complete(&receivers[0], 3), DISRUPTOR_NOT_TAKEN);
    expect("a completion", disruptor_complete(&receivers[0], 1), DISRUPTOR_OK);
    expect_progress("how far the first handler came", &receivers[0], 2, 1);
    expect_progress("how far the second came", &receivers[1], 0, 0);
    expect("a completion of more", disruptor_complete(&receivers[0], 2), DISRUPTOR_OK);
    expect("a completion backwards", disruptor_complete(&receivers[0], 1), DISRUPTOR_BEHIND);
}

static void try_the_end(void) {
    disruptor_event events[4];
    disruptor_offer offer;
    uint64_t lo;
    expect("another opening", open_ring(4, 10, 2, 2, 1), DISRUPTOR_STILL_OPEN);
    expect("a receiver's claim", disruptor_claim((disruptor_sender *)(void *)&receivers[0], 1, &lo), DISRUPTOR_WRONG_END);
    expect("a sender's poll", disruptor_poll((disruptor_receiver *)(void *)&sender, events, 4, &offer), DISRUPTOR_WRONG_END);
    disruptor_counts counts = {9, 9};
    expect("a halter's progress", disruptor_progress(&halter, &counts), DISRUPTOR_WRONG_END);
    expect("what that left", counts.begun == 9 && counts.done == 9, 1);
    expect("a halt", disruptor_halt(&halter), DISRUPTOR_OK);
    expect("a claim after it", disruptor_claim(&sender, 1, &lo), DISRUPTOR_HALTED);
    expect("a publication after it", disruptor_publish(&sender, 3, 3), DISRUPTOR_OK);
    expect("a close", disruptor_close(&sender), DISRUPTOR_OK);
    expect("the last events", disruptor_poll(&receivers[0], events, 4, &offer), DISRUPTOR_OK);
    expect("their end", offer.end, 1);
    expect("no events", disruptor_poll(&receivers[0], events, 4, &offer), DISRUPTOR_OK);
    expect("why", offer.kind, DISRUPTOR_DRAINED);
}

static void try_several(void) {
    static const uint64_t upstreams[1] = {0};
    static disruptor_sender senders[17];
    static disruptor_receiver one[1];
    static disruptor_halter last;
    disruptor_event event = {3, 4}, taken[4];
    disruptor_offer offer;
    uint64_t lo = 7, other = 7;
    expect("no senders", disruptor_open_several(4, 9, upstreams, 1, senders, 0, one, 1, &last), DISRUPTOR_BAD_PRODUCERS);
    expect("17 senders", disruptor_open_several(4, 9, upstreams, 1, senders, 17, one, 1, &last), DISRUPTOR_BAD_PRODUCERS);
    expect("no senders, and a limit of 0", disruptor_open_several(4, 0, upstreams, 1, senders, 0, one, 1, &last), DISRUPTOR_BAD_PRODUCERS);
    expect("a limit of 0, of several", disruptor_open_several(4, 0, upstreams, 1, senders, 2, one, 1, &last), DISRUPTOR_BAD_LIMIT);
    expect("no receivers", disruptor_open_several(4, 9, upstreams, 1, senders, 2, one, 0, &last), DISRUPTOR_BAD_COUNT);
    expect("null senders", disruptor_open_several(4, 9, upstreams, 1, NULL, 2, one, 1, &last), DISRUPTOR_BAD_POINTER);
    expect("a null halter", disruptor_open_several(4, 9, upstreams, 1, senders, 2, one, 1, NULL), DISRUPTOR_BAD_POINTER);
    expect("two senders", disruptor_open_several(4, 9, upstreams, 1, senders, 2, one, 1, &last), DISRUPTOR_OK);
    expect("two senders again", disruptor_open_several(4, 9, upstreams, 1, senders, 2, one, 1, &last), DISRUPTOR_STILL_OPEN);
    expect("the first's claim", disruptor_claim(&senders[0], 2, &lo), DISRUPTOR_OK);
    expect("the second's", disruptor_claim(&senders[1], 2, &other), DISRUPTOR_OK);
    expect("their sequences", lo == 0 && other == 2, 1);
    expect("a claim of full slots, of several", disruptor_claim(&senders[0], 1, &lo), DISRUPTOR_NO_ROOM);
    expect("a write to another's sequence", disruptor_write(&senders[0], 2, &event), DISRUPTOR_NOT_CLAIMED);
    for (uint64_t k = 0; k < 4; k++) expect("a write of several", disruptor_write(&senders[k / 2], k, &event), DISRUPTOR_OK);
    expect("a publication before the first's", disruptor_publish(&senders[1], 2, 3), DISRUPTOR_OK);
    expect("a poll before it", disruptor_poll(&one[0], taken, 4, &offer), DISRUPTOR_OK);
    expect("its kind", offer.kind, DISRUPTOR_GATING);
    expect("the first's publication", disruptor_publish(&senders[0], 0, 1), DISRUPTOR_OK);
    expect("a poll of all", disruptor_poll(&one[0], taken, 4, &offer), DISRUPTOR_OK);
    expect("its count", (uint32_t)offer.count, 4);
    expect("a completion of some", disruptor_complete(&one[0], 3), DISRUPTOR_OK);
    expect_progress("how far the handler of several came", &one[0], 4, 3);
    disruptor_counts counts = {9, 9};
    expect("the progress of one of several", disruptor_progress(&senders[0], &counts), DISRUPTOR_WRONG_END);
    expect("a completion of all", disruptor_complete(&one[0], 4), DISRUPTOR_OK);
    expect("a close of one of several", disruptor_close(&senders[0]), DISRUPTOR_WRONG_END);
    expect("a receiver's halt", disruptor_halt((disruptor_halter *)(void *)&one[0]), DISRUPTOR_WRONG_END);
    expect("a halt of several", disruptor_halt(&last), DISRUPTOR_OK);
    expect("a claim after the halt", disruptor_claim(&senders[1], 1, &lo), DISRUPTOR_HALTED);
    expect("a poll of none", disruptor_poll(&one[0], taken, 4, &offer), DISRUPTOR_OK);
    expect("its kind", offer.kind, DISRUPTOR_DRAINED);
    for (int k = 0; k < 2; k++) disruptor_free(&senders[k]);
    disruptor_free(&one[0]);
    disruptor_free(&last);
}

/* An end that is let go calls nothing: the ring is not halted, nothing is completed, and the ring is not closed. */
static void try_letting_go(void) {
    disruptor_event event = {1, 2}, taken[4];
    disruptor_offer offer;
    uint64_t lo;
    expect("an opening of two slots", open_ring(2, 6, 2, 2, 1), DISRUPTOR_OK);
    disruptor_free(&halter);
    expect("a claim without a halter", disruptor_claim(&sender, 2, &lo), DISRUPTOR_OK);
    for (uint64_t k = 0; k < 2; k++) expect("a write", disruptor_write(&sender, k, &event), DISRUPTOR_OK);
    expect("a publication", disruptor_publish(&sender, 0, 1), DISRUPTOR_OK);
    expect("a poll", disruptor_poll(&receivers[0], taken, 4, &offer), DISRUPTOR_OK);
    disruptor_free(&receivers[0]);
    expect("a poll behind one that is gone", disruptor_poll(&receivers[1], taken, 4, &offer), DISRUPTOR_OK);
    expect("its kind", offer.kind, DISRUPTOR_GATING);
    expect("a claim behind it", disruptor_claim(&sender, 1, &lo), DISRUPTOR_NO_ROOM);
    free_all();
    expect("an opening once more", open_ring(2, 6, 2, 2, 1), DISRUPTOR_OK);
    disruptor_free(&sender);
    expect("a poll without a sender", disruptor_poll(&receivers[0], taken, 4, &offer), DISRUPTOR_OK);
    expect("its kind", offer.kind, DISRUPTOR_IDLE);
    free_all();
}

/* So it is of several: one end let go changes nothing for the others. */
static void try_letting_go_of_several(void) {
    static const uint64_t upstreams[2] = {0, 1};
    static disruptor_sender senders[2];
    static disruptor_receiver two[2];
    static disruptor_halter last;
    disruptor_event event = {1, 2}, taken[4];
    disruptor_offer offer;
    uint64_t lo;
    expect("an opening for two senders", disruptor_open_several(2, 6, upstreams, 2, senders, 2, two, 2, &last), DISRUPTOR_OK);
    disruptor_free(&last);
    expect("a claim without a halter", disruptor_claim(&senders[0], 1, &lo), DISRUPTOR_OK);
    expect("a write", disruptor_write(&senders[0], 0, &event), DISRUPTOR_OK);
    expect("a publication", disruptor_publish(&senders[0], 0, 0), DISRUPTOR_OK);
    expect("the other's claim", disruptor_claim(&senders[1], 1, &lo), DISRUPTOR_OK);
    disruptor_free(&senders[1]);
    expect("a poll", disruptor_poll(&two[0], taken, 4, &offer), DISRUPTOR_OK);
    expect("its count", (uint32_t)offer.count, 1);
    expect("its end, where a sender is gone", disruptor_poll(&two[0], taken, 4, &offer), DISRUPTOR_OK);
    expect("its kind", offer.kind, DISRUPTOR_GATING);
    disruptor_free(&two[0]);
    expect("a poll behind one that is gone", disruptor_poll(&two[1], taken, 4, &offer), DISRUPTOR_OK);
    expect("its kind", offer.kind, DISRUPTOR_GATING);
    expect("a claim behind it", disruptor_claim(&senders[0], 1, &lo), DISRUPTOR_NO_ROOM);
    disruptor_free(&senders[0]);
    disruptor_free(&two[1]);
}

int main(void) {
    char name[16] = "";
    expect("the length of a name", (uint32_t)disruptor_name(DISRUPTOR_NO_ROOM, name, sizeof name), 7);
    expect("a name", strcmp(name, "no-room") == 0, 1);
    try_pairs();
    try_opening();
    try_closed_handles();
    expect("an opening", open_ring(4, 6, 2, 2, 1), DISRUPTOR_OK);
    try_pointers();
    try_sending();
    try_receiving();
    try_the_end();
    free_all();
    try_closed_handles();
    expect("an opening anew", open_ring(4, 6, 2, 2, 1), DISRUPTOR_OK);
    free_all();
    try_letting_go();
    try_letting_go_of_several();
    try_several();
    puts("every misuse is refused by its number");
    return 0;
}
