/* No call but an opening takes memory. The library is linked with -Wl,--wrap=malloc,--wrap=realloc, so each of its requests is counted
 * here. The calls are those of each kind of ring, done and refused. */
#include "disruptor.h"
#include <stdio.h>
#include <stdlib.h>

enum { SIZE = 8, ROUNDS = 100, SENDERS = 2, HANDLERS = 2, BYTES = 12 };

void *__real_malloc(size_t size);
void *__real_realloc(void *old, size_t size);
void *__wrap_malloc(size_t size);
void *__wrap_realloc(void *old, size_t size);

static unsigned long requests;

void *__wrap_malloc(size_t size) {
    requests++;
    return __real_malloc(size);
}

void *__wrap_realloc(void *old, size_t size) {
    requests++;
    return __real_realloc(old, size);
}

static const uint64_t upstreams[HANDLERS] = {0, 1};
static disruptor_sender senders[SENDERS];
static disruptor_receiver receivers[HANDLERS];
static disruptor_halter halter;

static void expect(const char *call, uint32_t is, uint32_t wanted) {
    if (is == wanted) return;
    printf("%s: %s, and not %s\n", call, disruptor_text(is), disruptor_text(wanted));
    exit(1);
}

/* Sends as many events as there are slots, by all these senders in turns, and then one too many. */
static void send_all(size_t count) {
    disruptor_event event = {1, 2};
    uint64_t lo;
    for (size_t k = 0; k < SIZE; k += 2) {
        void *sender = &senders[k / 2 % count];
        expect("a claim", disruptor_claim(sender, 2, &lo), DISRUPTOR_OK);
        expect("a publication unwritten", disruptor_publish(sender, lo, lo + 1), DISRUPTOR_NOT_WRITTEN);
        expect("a write", disruptor_write(sender, lo, &event), DISRUPTOR_OK);
        expect("a write", disruptor_write(sender, lo + 1, &event), DISRUPTOR_OK);
        expect("a publication", disruptor_publish(sender, lo, lo + 1), DISRUPTOR_OK);
    }
    expect("a claim of full slots", disruptor_claim(&senders[0], 1, &lo), DISRUPTOR_NO_ROOM);
    expect("a claim of none", disruptor_claim(&senders[0], 0, &lo), DISRUPTOR_BAD_COUNT);
}

/* Has each handler take and complete all events, and look once more. */
static void receive_all(uint32_t last) {
    disruptor_event events[SIZE];
    disruptor_counts counts;
    disruptor_offer offer;
    for (size_t h = 0; h < HANDLERS; h++) {
        expect("a poll", disruptor_poll(&receivers[h], events, SIZE, &offer), DISRUPTOR_OK);
        if (offer.kind == DISRUPTOR_BATCH) expect("a completion", disruptor_complete(&receivers[h], offer.first + offer.count), DISRUPTOR_OK);
        expect("a completion too far", disruptor_complete(&receivers[h], UINT64_MAX), DISRUPTOR_NOT_TAKEN);
        expect("a poll", disruptor_poll(&receivers[h], events, SIZE, &offer), DISRUPTOR_OK);
        expect("what it finds", offer.kind, last);
        expect("a progress", disruptor_progress(&receivers[h], &counts), DISRUPTOR_OK);
    }
}

/* The same in a ring of bytes. */
static void send_bytes(void) {
    const char bytes[BYTES] = "an event";
    uint64_t lo;
    expect("a claim", disruptor_claim(&senders[0], SIZE, &lo), DISRUPTOR_OK);
    expect("a publication unwritten", disruptor_publish(&senders[0], lo, lo), DISRUPTOR_NOT_WRITTEN);
    for (uint64_t k = 0; k < SIZE; k++) {
        expect("a write of too few bytes", disruptor_write_bytes(&senders[0], lo + k, bytes, BYTES - 1), DISRUPTOR_BAD_LENGTH);
        expect("a write of bytes", disruptor_write_bytes(&senders[0], lo + k, bytes, BYTES), DISRUPTOR_OK);
    }
    expect("a publication", disruptor_publish(&senders[0], lo, lo + SIZE - 1), DISRUPTOR_OK);
    expect("a claim of full slots", disruptor_claim(&senders[0], 1, &lo), DISRUPTOR_NO_ROOM);
}

static void receive_bytes(uint32_t last) {
    char bytes[BYTES];
    disruptor_offer offer;
    disruptor_counts counts;
    for (size_t h = 0; h < HANDLERS; h++) {
        expect("a poll of bytes", disruptor_poll_bytes(&receivers[h], SIZE, &offer), DISRUPTOR_OK);
        if (offer.kind == DISRUPTOR_BATCH) {
            expect("a read of bytes", disruptor_read_bytes(&receivers[h], offer.first, bytes, BYTES), DISRUPTOR_OK);
            expect("a completion", disruptor_complete(&receivers[h], offer.first + offer.count), DISRUPTOR_OK);
            expect("a read too late", disruptor_read_bytes(&receivers[h], offer.first, bytes, BYTES), DISRUPTOR_NOT_IN_HAND);
        }
        expect("a poll of bytes", disruptor_poll_bytes(&receivers[h], SIZE, &offer), DISRUPTOR_OK);
        expect("what it finds", offer.kind, last);
        expect("a progress", disruptor_progress(&receivers[h], &counts), DISRUPTOR_OK);
    }
}

/* The same in a ring of slots, by all these senders in turns. */
static void send_slots(size_t count) {
    uint64_t lo;
    for (size_t k = 0; k < SIZE; k += 2) {
        void *sender = &senders[k / 2 % count];
        expect("a claim", disruptor_claim(sender, 2, &lo), DISRUPTOR_OK);
        expect("a publication of too many slots", disruptor_publish_slots(sender, lo, lo + 2), DISRUPTOR_NOT_CLAIMED);
        expect("a publication of slots", disruptor_publish_slots(sender, lo, lo + 1), DISRUPTOR_OK);
        expect("another one", disruptor_publish_slots(sender, lo, lo + 1), DISRUPTOR_ALREADY_PUBLISHED);
    }
    expect("a claim of full slots", disruptor_claim(&senders[0], 1, &lo), DISRUPTOR_NO_ROOM);
}

static void receive_slots(uint32_t last) {
    disruptor_offer offer;
    uint64_t count;
    expect("a look at the cursor", disruptor_cursor(&halter, &count), DISRUPTOR_OK);
    for (size_t h = 0; h < HANDLERS; h++) {
        expect("a look at a count", disruptor_completed_by(&halter, h, &count), DISRUPTOR_OK);
        expect("a poll of slots", disruptor_poll_slots(&receivers[h], SIZE, &offer), DISRUPTOR_OK);
        if (offer.kind == DISRUPTOR_BATCH) expect("a completion", disruptor_complete(&receivers[h], offer.first + offer.count), DISRUPTOR_OK);
        expect("a poll without room", disruptor_poll_slots(&receivers[h], 0, &offer), DISRUPTOR_BAD_COUNT);
        expect("a poll of slots", disruptor_poll_slots(&receivers[h], SIZE, &offer), DISRUPTOR_OK);
        expect("what it finds", offer.kind, last);
    }
}

/* What a ring has: two words or bytes, or only slots. */
enum kind { WORDS, OF_BYTES, SLOTS };

static void send(enum kind kind, size_t count) {
    if (kind == WORDS) send_all(count);
    if (kind == OF_BYTES) send_bytes();
    if (kind == SLOTS) send_slots(count);
}

static void receive(enum kind kind, uint32_t last) {
    if (kind == WORDS) receive_all(last);
    if (kind == OF_BYTES) receive_bytes(last);
    if (kind == SLOTS) receive_slots(last);
}

/* Has a ring with so many senders do all its work. */
static void work(size_t count, enum kind kind) {
    unsigned long before = requests;
    uint64_t lo;
    for (int k = 0; k < ROUNDS; k++) {
        send(kind, count);
        receive(kind, DISRUPTOR_IDLE);
    }
    if (count == 1) expect("a close", disruptor_close(&senders[0]), DISRUPTOR_OK);
    expect("a halt", disruptor_halt(&halter), DISRUPTOR_OK);
    expect("a claim after it", disruptor_claim(&senders[0], 1, &lo), DISRUPTOR_HALTED);
    receive(kind, DISRUPTOR_DRAINED);
    for (size_t k = 0; k < count; k++) disruptor_free(&senders[k]);
    for (size_t h = 0; h < HANDLERS; h++) disruptor_free(&receivers[h]);
    disruptor_free(&halter);
    if (before == 0 || requests != before) {
        printf("%lu requests of an opening, and %lu after it\n", before, requests - before);
        exit(1);
    }
    requests = 0;
}

int main(void) {
    expect("an opening", disruptor_open(SIZE, DISRUPTOR_MAX_LIMIT, upstreams, HANDLERS, senders, receivers, HANDLERS, &halter), DISRUPTOR_OK);
    work(1, WORDS);
    expect("an opening for several",
        disruptor_open_several(SIZE, DISRUPTOR_MAX_LIMIT, upstreams, HANDLERS, senders, SENDERS, receivers, HANDLERS, &halter), DISRUPTOR_OK);
    work(SENDERS, WORDS);
    expect("an opening of bytes",
        disruptor_open_bytes(SIZE, DISRUPTOR_MAX_LIMIT, BYTES, upstreams, HANDLERS, senders, receivers, HANDLERS, &halter), DISRUPTOR_OK);
    work(1, OF_BYTES);
    expect("an opening of slots",
        disruptor_open_slots(SIZE, DISRUPTOR_MAX_LIMIT, upstreams, HANDLERS, senders, receivers, HANDLERS, &halter), DISRUPTOR_OK);
    work(1, SLOTS);
    expect("an opening of slots for several",
        disruptor_open_several_slots(SIZE, DISRUPTOR_MAX_LIMIT, upstreams, HANDLERS, senders, SENDERS, receivers, HANDLERS, &halter), DISRUPTOR_OK);
    work(SENDERS, SLOTS);
    printf("no call but an opening takes memory\n");
    return 0;
}
