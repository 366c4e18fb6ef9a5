/* Each misuse of a ring of slots, and the number that refuses it. */
#include "disruptor.h"
#include <stdio.h>
#include <stdlib.h>

enum { SIZE = 4 };

static void expect(int line, uint32_t is, uint32_t wanted) {
    if (is == wanted) return;
    printf("line %d: %s, and not %s\n", line, disruptor_text(is), disruptor_text(wanted));
    exit(1);
}
#define EXPECT(is, wanted) expect(__LINE__, is, DISRUPTOR_##wanted)

static void expect_batch(int line, const disruptor_offer *offer, uint64_t first, uint64_t count) {
    if (offer->kind == DISRUPTOR_BATCH && offer->first == first && offer->count == count) return;
    printf("line %d: not the batch of %d from %d\n", line, (int)count, (int)first);
    exit(1);
}

/* How far the sender or senders and a handler came, as the halter says it. */
static void expect_counts(int line, disruptor_halter *halter, uint64_t cursor, size_t handler, uint64_t completed) {
    uint64_t is, has;
    expect(line, disruptor_cursor(halter, &is), DISRUPTOR_OK);
    expect(line, disruptor_completed_by(halter, handler, &has), DISRUPTOR_OK);
    if (is == cursor && has == completed) return;
    printf("line %d: %d and %d, and not %d and %d\n", line, (int)is, (int)has, (int)cursor, (int)completed);
    exit(1);
}

static void of_one(void) {
    static const uint64_t upstreams[1] = {0};
    disruptor_sender sender = DISRUPTOR_NEW;
    disruptor_receiver receiver = DISRUPTOR_NEW;
    disruptor_halter halter = DISRUPTOR_NEW;
    disruptor_offer offer;
    uint64_t lo;
    EXPECT(disruptor_publish_slots(&sender, 0, 0), NOT_OPEN);
    EXPECT(disruptor_poll_slots(&receiver, 1, &offer), NOT_OPEN);
    EXPECT(disruptor_cursor(&halter, &lo), NOT_OPEN);
    EXPECT(disruptor_completed_by(&halter, 0, &lo), NOT_OPEN);
    EXPECT(disruptor_open_slots(3, 100, upstreams, 1, &sender, &receiver, 1, &halter), BAD_SIZE);
    EXPECT(disruptor_open_slots(SIZE, 100, upstreams, 1, &sender, &receiver, 1, &halter), OK);
    EXPECT(disruptor_publish_slots(NULL, 0, 0), BAD_POINTER);
    EXPECT(disruptor_cursor(&halter, NULL), BAD_POINTER);
    EXPECT(disruptor_completed_by(NULL, 0, &lo), BAD_POINTER);
    EXPECT(disruptor_cursor((disruptor_halter *)&sender, &lo), WRONG_END);
    EXPECT(disruptor_completed_by((disruptor_halter *)&receiver, 0, &lo), WRONG_END);
    EXPECT(disruptor_completed_by(&halter, 1, &lo), NO_HANDLER);
    EXPECT(disruptor_completed_by(&halter, SIZE_MAX, &lo), NO_HANDLER);
    EXPECT(disruptor_poll_slots(&receiver, 1, NULL), BAD_POINTER);
    EXPECT(disruptor_publish_slots((disruptor_sender *)&receiver, 0, 0), WRONG_END);
    EXPECT(disruptor_poll_slots((disruptor_receiver *)&sender, 1, &offer), WRONG_END);
    EXPECT(disruptor_poll_slots(&receiver, 0, &offer), BAD_COUNT);
    EXPECT(disruptor_publish_slots(&sender, 0, 0), NOT_CLAIMED);
    EXPECT(disruptor_claim(&sender, 3, &lo), OK);
    EXPECT(disruptor_publish(&sender, 0, 2), NOT_WRITTEN);
    EXPECT(disruptor_publish_slots(&sender, 1, 0), BAD_COUNT);
    EXPECT(disruptor_publish_slots(&sender, 0, 3), NOT_CLAIMED);
    EXPECT(disruptor_publish_slots(&sender, 0, UINT64_MAX), NOT_CLAIMED);
    EXPECT(disruptor_publish_slots(&sender, 1, 2), OUT_OF_ORDER);
    EXPECT(disruptor_close(&sender), OPEN_CLAIM);
    EXPECT(disruptor_publish_slots(&sender, 0, 1), OK);
    EXPECT(disruptor_publish_slots(&sender, 1, 2), ALREADY_PUBLISHED);
    EXPECT(disruptor_poll_slots(&receiver, 1, &offer), OK);
    expect_batch(__LINE__, &offer, 0, 1);
    EXPECT(disruptor_poll_slots(&receiver, 5, &offer), OK);
    expect_batch(__LINE__, &offer, 1, 1);
    EXPECT(disruptor_complete(&receiver, 3), NOT_TAKEN);
    EXPECT(disruptor_claim(&sender, 2, &lo), NO_ROOM);
    expect_counts(__LINE__, &halter, 2, 0, 0);
    EXPECT(disruptor_complete(&receiver, 2), OK);
    expect_counts(__LINE__, &halter, 2, 0, 2);
    EXPECT(disruptor_claim(&sender, 3, &lo), OK);
    EXPECT(disruptor_publish_slots(&sender, 2, 5), OK);
    EXPECT(disruptor_close(&sender), OK);
    EXPECT(disruptor_poll_slots(&receiver, 5, &offer), OK);
    expect_batch(__LINE__, &offer, 2, 4);
    EXPECT(disruptor_complete(&receiver, 6), OK);
    EXPECT(disruptor_poll_slots(&receiver, 5, &offer), OK);
    if (offer.kind != DISRUPTOR_DRAINED) puts("it is not drained"), exit(1);
    disruptor_free(&sender), disruptor_free(&receiver), disruptor_free(&halter);
    EXPECT(disruptor_publish_slots(&sender, 0, 0), NOT_OPEN);
}

static void of_several(void) {
    static const uint64_t upstreams[2] = {0, 1};
    disruptor_sender senders[2] = {DISRUPTOR_NEW, DISRUPTOR_NEW};
    disruptor_receiver receivers[2] = {DISRUPTOR_NEW, DISRUPTOR_NEW};
    disruptor_halter halter = DISRUPTOR_NEW;
    disruptor_offer offer;
    uint64_t lo;
    EXPECT(disruptor_open_several_slots(SIZE, 100, upstreams, 2, senders, 2, receivers, 2, &halter), OK);
    EXPECT(disruptor_claim(&senders[0], 1, &lo), OK);
    EXPECT(disruptor_claim(&senders[1], 2, &lo), OK);
    EXPECT(disruptor_publish_slots(&senders[0], 0, 2), NOT_CLAIMED);
    EXPECT(disruptor_publish_slots(&senders[0], 1, 1), NOT_CLAIMED);
    EXPECT(disruptor_publish_slots(&senders[1], 1, 2), OK);
    EXPECT(disruptor_publish_slots(&senders[1], 1, 2), ALREADY_PUBLISHED);
    EXPECT(disruptor_poll_slots(&receivers[0], 4, &offer), OK);
    if (offer.kind != DISRUPTOR_GATING) puts("it is not gating"), exit(1);
    EXPECT(disruptor_publish_slots(&senders[0], 0, 0), OK);
    EXPECT(disruptor_poll_slots(&receivers[0], 4, &offer), OK);
    expect_batch(__LINE__, &offer, 0, 3);
    EXPECT(disruptor_poll_slots(&receivers[1], 4, &offer), OK);
    if (offer.kind != DISRUPTOR_GATING) puts("it is not gating"), exit(1);
    EXPECT(disruptor_complete(&receivers[0], 3), OK);
    expect_counts(__LINE__, &halter, 3, 0, 3);
    EXPECT(disruptor_poll_slots(&receivers[1], 4, &offer), OK);
    expect_batch(__LINE__, &offer, 0, 3);
    EXPECT(disruptor_halt(&halter), OK);
    expect_counts(__LINE__, &halter, 3, 1, 0);
    EXPECT(disruptor_completed_by(&halter, 2, &lo), NO_HANDLER);
    for (int k = 0; k < 2; k++) disruptor_free(&senders[k]), disruptor_free(&receivers[k]);
    disruptor_free(&halter);
}

static void of_words(void) {
    static const uint64_t upstreams[1] = {0};
    disruptor_sender sender = DISRUPTOR_NEW;
    disruptor_receiver receiver = DISRUPTOR_NEW;
    disruptor_halter halter = DISRUPTOR_NEW;
    disruptor_offer offer;
    uint64_t count;
    EXPECT(disruptor_open(SIZE, 100, upstreams, 1, &sender, &receiver, 1, &halter), OK);
    EXPECT(disruptor_publish_slots(&sender, 0, 0), WRONG_END);
    EXPECT(disruptor_poll_slots(&receiver, 1, &offer), WRONG_END);
    EXPECT(disruptor_cursor(&halter, &count), WRONG_END);
    EXPECT(disruptor_completed_by(&halter, 0, &count), WRONG_END);
    disruptor_free(&sender), disruptor_free(&receiver), disruptor_free(&halter);
}

int main(void) {
    of_one();
    of_several();
    of_words();
    puts("every misuse of slots is refused by its number");
    return 0;
}
