/* The numbers that a call on an end of a ring of bytes may answer, all but no-memory; a misuse changes nothing. */
#include "disruptor.h"
#include <stdio.h>
#include <stdlib.h>
#include <string.h>

static void expect(const char *call, uint32_t is, uint32_t wanted) {
    if (is == wanted) return;
    printf("%s: %u (%s), and not %u (%s)\n", call, is, disruptor_text(is), wanted, disruptor_text(wanted));
    exit(1);
}

/* How far an end came. */
static void expect_progress(const char *call, void *handle, uint64_t begun, uint64_t done) {
    disruptor_counts counts = {9, 9};
    expect(call, disruptor_progress(handle, &counts), DISRUPTOR_OK);
    expect(call, counts.begun == begun && counts.done == done, 1);
}

enum { BYTES = 12 };

static disruptor_sender sender;
static disruptor_receiver receivers[2];
static disruptor_halter halter;
static const uint64_t upstreams[2] = {0, 1};

static uint32_t open_ring(uint64_t size, uint64_t limit, size_t bytes) {
    return disruptor_open_bytes(size, limit, bytes, upstreams, 2, &sender, receivers, 2, &halter);
}

static void free_all(void) {
    disruptor_free(&sender);
    for (size_t k = 0; k < 2; k++) disruptor_free(&receivers[k]);
    disruptor_free(&halter);
}

static void try_opening(void) {
    static const uint64_t itself[2] = {0, 2};
    expect("a size of 3", open_ring(3, 6, BYTES), DISRUPTOR_BAD_SIZE);
    expect("a limit of 0", open_ring(4, 0, BYTES), DISRUPTOR_BAD_LIMIT);
    expect("more bytes than memory has", open_ring(4, 6, SIZE_MAX), DISRUPTOR_NO_MEMORY);
    expect("that, and a limit of 0", open_ring(4, 0, SIZE_MAX), DISRUPTOR_BAD_LIMIT);
    expect("no masks", disruptor_open_bytes(4, 6, BYTES, NULL, 2, &sender, receivers, 2, &halter), DISRUPTOR_BAD_POINTER);
    expect("no sender", disruptor_open_bytes(4, 6, BYTES, upstreams, 2, NULL, receivers, 2, &halter), DISRUPTOR_BAD_POINTER);
    expect("no receivers", disruptor_open_bytes(4, 6, BYTES, upstreams, 2, &sender, NULL, 2, &halter), DISRUPTOR_BAD_POINTER);
    expect("no halter", disruptor_open_bytes(4, 6, BYTES, upstreams, 2, &sender, receivers, 2, NULL), DISRUPTOR_BAD_POINTER);
    expect("no handlers", disruptor_open_bytes(4, 6, BYTES, NULL, 0, &sender, NULL, 0, &halter), DISRUPTOR_NO_HANDLERS);
    expect("fewer receivers", disruptor_open_bytes(4, 6, BYTES, upstreams, 2, &sender, receivers, 1, &halter), DISRUPTOR_BAD_COUNT);
    expect("a handler before itself", disruptor_open_bytes(4, 6, BYTES, itself, 2, &sender, receivers, 2, &halter),
           DISRUPTOR_BAD_ORDER);
    expect("and nothing is open", disruptor_halt(&halter), DISRUPTOR_NOT_OPEN);
}

static void try_closed_handles(void) {
    char bytes[BYTES] = "nothing";
    disruptor_offer offer = {9, 9, 9, 9};
    expect("a write by nothing", disruptor_write_bytes(&sender, 0, bytes, BYTES), DISRUPTOR_NOT_OPEN);
    expect("a poll by nothing", disruptor_poll_bytes(&receivers[0], 4, &offer), DISRUPTOR_NOT_OPEN);
    expect("a read by nothing", disruptor_read_bytes(&receivers[0], 0, bytes, BYTES), DISRUPTOR_NOT_OPEN);
    expect("what that left", offer.kind == 9 && strcmp(bytes, "nothing") == 0, 1);
}

static void try_pointers(void) {
    char bytes[BYTES] = "nothing";
    disruptor_offer offer = {9, 9, 9, 9};
    expect("a write by null", disruptor_write_bytes(NULL, 0, bytes, BYTES), DISRUPTOR_BAD_POINTER);
    expect("a write of null", disruptor_write_bytes(&sender, 0, NULL, BYTES), DISRUPTOR_BAD_POINTER);
    expect("a write of more than memory has", disruptor_write_bytes(&sender, 0, bytes, SIZE_MAX), DISRUPTOR_BAD_POINTER);
    expect("a poll by null", disruptor_poll_bytes(NULL, 4, &offer), DISRUPTOR_BAD_POINTER);
    expect("a poll that tells null", disruptor_poll_bytes(&receivers[0], 4, NULL), DISRUPTOR_BAD_POINTER);
    expect("a read by null", disruptor_read_bytes(NULL, 0, bytes, BYTES), DISRUPTOR_BAD_POINTER);
    expect("a read to null", disruptor_read_bytes(&receivers[0], 0, NULL, BYTES), DISRUPTOR_BAD_POINTER);
    expect("a read to more than memory has", disruptor_read_bytes(&receivers[0], 0, bytes, SIZE_MAX), DISRUPTOR_BAD_POINTER);
    expect("what all these left", offer.kind == 9 && strcmp(bytes, "nothing") == 0, 1);
}

/* Calls of the rings of two words, on ends of bytes, and the other way round. */
static void try_other_ends(void) {
    static disruptor_sender words;
    static disruptor_receiver one;
    static disruptor_halter last;
    char bytes[BYTES] = "nothing";
    disruptor_event event = {1, 2};
    disruptor_offer offer = {9, 9, 9, 9};
    disruptor_counts counts = {9, 9};
    expect("two words by a sender of bytes", disruptor_write(&sender, 0, &event), DISRUPTOR_WRONG_END);
    expect("a poll of words from bytes", disruptor_poll(&receivers[0], &event, 1, &offer), DISRUPTOR_WRONG_END);
    expect("the progress of a halter", disruptor_progress(&halter, &counts), DISRUPTOR_WRONG_END);
    expect("a receiver's write", disruptor_write_bytes((disruptor_sender *)(void *)&receivers[0], 0, bytes, BYTES),
           DISRUPTOR_WRONG_END);
    expect("a sender's poll", disruptor_poll_bytes((disruptor_receiver *)(void *)&sender, 4, &offer), DISRUPTOR_WRONG_END);
    expect("a sender's read", disruptor_read_bytes((disruptor_receiver *)(void *)&sender, 0, bytes, BYTES), DISRUPTOR_WRONG_END);
    expect("a ring of words", disruptor_open(4, 6, upstreams, 1, &words, &one, 1, &last), DISRUPTOR_OK);
    expect("bytes by a sender of words", disruptor_write_bytes(&words, 0, bytes, BYTES), DISRUPTOR_WRONG_END);
    expect("a poll of bytes from words", disruptor_poll_bytes(&one, 4, &offer), DISRUPTOR_WRONG_END);
    expect("a read of bytes from words", disruptor_read_bytes(&one, 0, bytes, BYTES), DISRUPTOR_WRONG_END);
    expect("what all these left", offer.kind == 9 && counts.begun == 9 && event.first == 1 && strcmp(bytes, "nothing") == 0, 1);
    disruptor_free(&words);
    disruptor_free(&one);
    disruptor_free(&last);
}

static void try_sending(void) {
    uint64_t lo = 7;
    char bytes[BYTES] = "event 0";
    expect("a claim of none", disruptor_claim(&sender, 0, &lo), DISRUPTOR_BAD_COUNT);
    expect("a write of what is not claimed", disruptor_write_bytes(&sender, 0, bytes, BYTES), DISRUPTOR_NOT_CLAIMED);
    expect("too few bytes of what is not claimed", disruptor_write_bytes(&sender, 0, bytes, BYTES - 1), DISRUPTOR_BAD_LENGTH);
    expect("a claim", disruptor_claim(&sender, 4, &lo), DISRUPTOR_OK);
    expect("its first sequence", (uint32_t)lo, 0);
    expect("a claim of full slots", disruptor_claim(&sender, 1, &lo), DISRUPTOR_NO_ROOM);
    expect("a claim past the limit", disruptor_claim(&sender, 3, &lo), DISRUPTOR_EXHAUSTED);
    expect("too few bytes", disruptor_write_bytes(&sender, 0, bytes, BYTES - 1), DISRUPTOR_BAD_LENGTH);
    expect("too many bytes", disruptor_write_bytes(&sender, 0, "twelve and more", BYTES + 1), DISRUPTOR_BAD_LENGTH);
    expect("no bytes", disruptor_write_bytes(&sender, 0, NULL, 0), DISRUPTOR_BAD_LENGTH);
    expect("a publication of what is not written", disruptor_publish(&sender, 0, 0), DISRUPTOR_NOT_WRITTEN);
    for (uint64_t k = 0; k < 4; k++) {
        bytes[6] = (char)('0' + k);
        expect("a write", disruptor_write_bytes(&sender, k, bytes, BYTES), DISRUPTOR_OK);
    }
    memset(bytes, 0, BYTES);
    expect("a publication out of order", disruptor_publish(&sender, 1, 1), DISRUPTOR_OUT_OF_ORDER);
    expect("a publication backwards", disruptor_publish(&sender, 1, 0), DISRUPTOR_BAD_COUNT);
    expect("a close over a claim", disruptor_close(&sender), DISRUPTOR_OPEN_CLAIM);
    expect("a publication", disruptor_publish(&sender, 0, 2), DISRUPTOR_OK);
    expect("a second one", disruptor_publish(&sender, 0, 2), DISRUPTOR_ALREADY_PUBLISHED);
    expect("a write after it", disruptor_write_bytes(&sender, 2, bytes, BYTES), DISRUPTOR_ALREADY_PUBLISHED);
    expect_progress("how far the sender came", &sender, 4, 3);
}

static void expect_text(disruptor_receiver *receiver, uint64_t sequence, const char *text) {
    char bytes[BYTES];
    memset(bytes, 1, BYTES);
    expect("a read", disruptor_read_bytes(receiver, sequence, bytes, BYTES), DISRUPTOR_OK);
    expect(text, strcmp(bytes, text) == 0, 1);
}

static void try_receiving(void) {
    char bytes[BYTES + 1] = "nothing";
    disruptor_offer offer;
    expect("a poll without room", disruptor_poll_bytes(&receivers[0], 0, &offer), DISRUPTOR_BAD_COUNT);
    expect("a poll behind another", disruptor_poll_bytes(&receivers[1], 4, &offer), DISRUPTOR_OK);
    expect("its kind", offer.kind, DISRUPTOR_GATING);
    expect("a read of what is not taken", disruptor_read_bytes(&receivers[0], 0, bytes, BYTES), DISRUPTOR_NOT_IN_HAND);
    expect("a poll", disruptor_poll_bytes(&receivers[0], 2, &offer), DISRUPTOR_OK);
    expect("its kind", offer.kind, DISRUPTOR_BATCH);
    expect("its count", (uint32_t)offer.count, 2);
    expect("its end", offer.end, 0);
    expect("a read of too few bytes", disruptor_read_bytes(&receivers[0], 0, bytes, BYTES - 1), DISRUPTOR_BAD_LENGTH);
    expect("a read of too many", disruptor_read_bytes(&receivers[0], 0, bytes, BYTES + 1), DISRUPTOR_BAD_LENGTH);
    expect("a read of none", disruptor_read_bytes(&receivers[0], 0, NULL, 0), DISRUPTOR_BAD_LENGTH);
    expect("a read of few, past what is taken", disruptor_read_bytes(&receivers[0], 2, bytes, BYTES - 1), DISRUPTOR_NOT_IN_HAND);
    expect("what refused reads left", strcmp(bytes, "nothing") == 0, 1);
    expect_text(&receivers[0], 1, "event 1");
    expect_text(&receivers[0], 0, "event 0");
    expect_text(&receivers[0], 0, "event 0");
    expect("a completion of what is not taken", disruptor_complete(&receivers[0], 3), DISRUPTOR_NOT_TAKEN);
    expect("a completion", disruptor_complete(&receivers[0], 1), DISRUPTOR_OK);
    expect("a read of what is completed", disruptor_read_bytes(&receivers[0], 0, bytes, BYTES), DISRUPTOR_NOT_IN_HAND);
    expect_progress("how far the first handler came", &receivers[0], 2, 1);
    expect_progress("how far the second came", &receivers[1], 0, 0);
    expect("a completion of more", disruptor_complete(&receivers[0], 2), DISRUPTOR_OK);
    expect("a completion backwards", disruptor_complete(&receivers[0], 1), DISRUPTOR_BEHIND);
    expect("a poll of the second", disruptor_poll_bytes(&receivers[1], 4, &offer), DISRUPTOR_OK);
    expect("its count", (uint32_t)offer.count, 2);
    expect_text(&receivers[1], 1, "event 1");
    expect("the second's completion", disruptor_complete(&receivers[1], 2), DISRUPTOR_OK);
}

/* The next round writes over the first. */
static void try_the_end(void) {
    uint64_t lo;
    char bytes[BYTES] = "event 4";
    disruptor_offer offer;
    expect("another opening", open_ring(4, 6, BYTES), DISRUPTOR_STILL_OPEN);
    expect("a claim of the second round", disruptor_claim(&sender, 1, &lo), DISRUPTOR_OK);
    expect("its first sequence", (uint32_t)lo, 4);
    expect("a write of the second round", disruptor_write_bytes(&sender, 4, bytes, BYTES), DISRUPTOR_OK);
    expect("a halt", disruptor_halt(&halter), DISRUPTOR_OK);
    expect("a claim after it", disruptor_claim(&sender, 1, &lo), DISRUPTOR_HALTED);
    expect("a publication after it", disruptor_publish(&sender, 3, 4), DISRUPTOR_OK);
    expect("a close", disruptor_close(&sender), DISRUPTOR_OK);
    expect("the last events", disruptor_poll_bytes(&receivers[0], 4, &offer), DISRUPTOR_OK);
    expect("their count", (uint32_t)offer.count, 3);
    expect_text(&receivers[0], 2, "event 2");
    expect_text(&receivers[0], 4, "event 4");
    expect("no events", disruptor_poll_bytes(&receivers[0], 4, &offer), DISRUPTOR_OK);
    expect("why", offer.kind, DISRUPTOR_DRAINED);
}

static void try_no_bytes(void) {
    uint64_t lo;
    disruptor_offer offer;
    expect("an opening of no bytes", open_ring(1, 6, 0), DISRUPTOR_OK);
    expect("a claim", disruptor_claim(&sender, 1, &lo), DISRUPTOR_OK);
    expect("a write of none", disruptor_write_bytes(&sender, 0, NULL, 0), DISRUPTOR_OK);
    expect("a publication", disruptor_publish(&sender, 0, 0), DISRUPTOR_OK);
    expect("a poll", disruptor_poll_bytes(&receivers[0], 1, &offer), DISRUPTOR_OK);
    expect("a read of none", disruptor_read_bytes(&receivers[0], 0, NULL, 0), DISRUPTOR_OK);
    expect("a read of one", disruptor_read_bytes(&receivers[0], 0, &lo, 1), DISRUPTOR_BAD_LENGTH);
    free_all();
}

/* An end that is let go is not used by that: it neither halts, nor closes, nor completes. */
static void try_letting_go(void) {
    uint64_t lo;
    char bytes[BYTES] = "event 0";
    disruptor_offer offer;
    expect("an opening of one slot", open_ring(1, 6, BYTES), DISRUPTOR_OK);
    disruptor_free(&halter);
    expect("a claim without a halter", disruptor_claim(&sender, 1, &lo), DISRUPTOR_OK);
    expect("a write", disruptor_write_bytes(&sender, 0, bytes, BYTES), DISRUPTOR_OK);
    expect("a publication", disruptor_publish(&sender, 0, 0), DISRUPTOR_OK);
    expect("a poll", disruptor_poll_bytes(&receivers[0], 1, &offer), DISRUPTOR_OK);
    disruptor_free(&receivers[0]);
    expect("a poll behind one that is gone", disruptor_poll_bytes(&receivers[1], 1, &offer), DISRUPTOR_OK);
    expect("its kind", offer.kind, DISRUPTOR_GATING);
    expect("a claim behind it", disruptor_claim(&sender, 1, &lo), DISRUPTOR_NO_ROOM);
    free_all();
    expect("an opening once more", open_ring(1, 6, BYTES), DISRUPTOR_OK);
    disruptor_free(&sender);
    expect("a poll without a sender", disruptor_poll_bytes(&receivers[0], 1, &offer), DISRUPTOR_OK);
    expect("its kind", offer.kind, DISRUPTOR_IDLE);
    free_all();
}

int main(void) {
    try_opening();
    try_closed_handles();
    expect("an opening", open_ring(4, 6, BYTES), DISRUPTOR_OK);
    try_pointers();
    try_other_ends();
    try_sending();
    try_receiving();
    try_the_end();
    free_all();
    try_closed_handles();
    try_no_bytes();
    try_letting_go();
    puts("every misuse of bytes is refused by its number");
    return 0;
}
