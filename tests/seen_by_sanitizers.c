/* A stand-in for the proved library, for the sanitizer of threads alone, which sees no atomic of the proved archive and so would find
 * a race wherever two threads use a slot in turn. Its words are atomics of C, stored and loaded where the library does that, so what
 * is found over it is at fault in a header, a package or a test. It has the calls that those need, and few of their refusals. */
#include "disruptor.h"
#include <stdatomic.h>
#include <stdlib.h>
#include <string.h>

enum { MOST_HANDLERS = 16 };

struct ring {
    uint64_t size, limit, upstreams[MOST_HANDLERS];
    size_t handlers, width;
    bool of_several;
    _Atomic uint64_t claimed, cursor, completed[MOST_HANDLERS], ends;
    _Atomic bool is_closed, is_halted;
    /* Of several senders the sequence after that which was published last in a slot; and the events that the ring has. */
    _Atomic uint64_t *published;
    unsigned char *events;
};

/* What a handle leads to. */
struct end {
    struct ring *ring;
    enum { SENDS = 1, RECEIVES, HALTS } kind;
    size_t number;
    /* What it claimed or took, and what it published or completed. */
    uint64_t begun, done;
};

static void give(void *handle, struct ring *ring, int kind, size_t number) {
    struct end *end = calloc(1, sizeof *end);
    end->ring = ring, end->kind = kind, end->number = number;
    *(struct end **)handle = end;
    atomic_fetch_add(&ring->ends, 1);
}

void disruptor_free_at(void *handles, size_t count) {
    for (size_t k = 0; k < count; k++) {
        struct end **at = (struct end **)((char *)handles + k * sizeof(disruptor_sender)), *end = *at;
        *at = NULL;
        if (end && atomic_fetch_sub(&end->ring->ends, 1) == 1) {
            free((void *)end->ring->published), free(end->ring->events), free(end->ring);
        }
        free(end);
    }
}

static uint32_t open(uint64_t size, uint64_t limit, size_t width, const uint64_t *upstreams, size_t handlers, disruptor_sender *senders,
                     size_t count, disruptor_receiver *receivers, disruptor_halter *halter, bool of_several) {
    if (size == 0 || size & (size - 1) || size > 65536) return DISRUPTOR_BAD_SIZE;
    if (handlers == 0) return DISRUPTOR_NO_HANDLERS;
    if (handlers > MOST_HANDLERS) return DISRUPTOR_TOO_MANY;
    for (size_t k = 0; k < handlers; k++)
        if (upstreams[k] >> k) return DISRUPTOR_BAD_ORDER;
    if (count < 1 || count > 16) return DISRUPTOR_BAD_PRODUCERS;
    if (limit == 0 || limit > DISRUPTOR_MAX_LIMIT) return DISRUPTOR_BAD_LIMIT;
    struct ring *ring = calloc(1, sizeof *ring);
    ring->size = size, ring->limit = limit, ring->handlers = handlers, ring->width = width, ring->of_several = of_several;
    memcpy(ring->upstreams, upstreams, handlers * sizeof *upstreams);
    ring->published = calloc(size, sizeof *ring->published), ring->events = calloc(size, width + 1);
    for (size_t k = 0; k < count; k++) give(&senders[k], ring, SENDS, k);
    for (size_t k = 0; k < handlers; k++) give(&receivers[k], ring, RECEIVES, k);
    give(halter, ring, HALTS, 0);
    return DISRUPTOR_OK;
}

uint32_t disruptor_open_at(uint64_t size, uint64_t limit, const uint64_t *upstreams, size_t masks, size_t handlers,
                           disruptor_sender *sender, size_t senders, disruptor_receiver *receivers, size_t places, size_t count,
                           disruptor_halter *halter, size_t halters) {
    (void)masks, (void)places, (void)count, (void)halters;
    return open(size, limit, sizeof(disruptor_event), upstreams, handlers, sender, senders, receivers, halter, false);
}

uint32_t disruptor_open_bytes_at(uint64_t size, uint64_t limit, size_t bytes, const uint64_t *upstreams, size_t masks, size_t handlers,
                                 disruptor_sender *sender, size_t senders, disruptor_receiver *receivers, size_t places, size_t count,
                                 disruptor_halter *halter, size_t halters) {
    (void)masks, (void)places, (void)count, (void)halters;
    return open(size, limit, bytes, upstreams, handlers, sender, senders, receivers, halter, false);
}

uint32_t disruptor_open_several_at(uint64_t size, uint64_t limit, const uint64_t *upstreams, size_t masks, size_t handlers,
                                   disruptor_sender *senders, size_t ends, size_t count, disruptor_receiver *receivers, size_t places,
                                   size_t rooms, disruptor_halter *halter, size_t halters) {
    (void)masks, (void)ends, (void)places, (void)rooms, (void)halters;
    return open(size, limit, sizeof(disruptor_event), upstreams, handlers, senders, count, receivers, halter, true);
}

static struct end *end_of(void *handle) {
    return *(struct end **)handle;
}

/* The least that these handlers completed. */
static uint64_t least(struct ring *ring, uint64_t handlers) {
    uint64_t least = UINT64_MAX;
    for (size_t k = 0; k < ring->handlers; k++) {
        const uint64_t completed = handlers >> k & 1 ? atomic_load(&ring->completed[k]) : UINT64_MAX;
        least = completed < least ? completed : least;
    }
    return least;
}

uint32_t disruptor_claim_at(disruptor_sender *sender, size_t senders, uint64_t n, uint64_t *lo, size_t numbers) {
    struct end *end = end_of(sender);
    (void)senders, (void)numbers;
    if (!end) return DISRUPTOR_NOT_OPEN;
    struct ring *ring = end->ring;
    uint64_t first = atomic_load(&ring->claimed);
    if (n == 0 || n > ring->size) return DISRUPTOR_BAD_COUNT;
    if (atomic_load(&ring->is_halted) || atomic_load(&ring->is_closed)) return DISRUPTOR_HALTED;
    if (first + n > ring->limit) return DISRUPTOR_EXHAUSTED;
    if (first + n > ring->size + least(ring, UINT64_MAX)) return DISRUPTOR_NO_ROOM;
    if (!atomic_compare_exchange_strong(&ring->claimed, &first, first + n)) return DISRUPTOR_CONTENDED;
    *lo = first, end->begun += n;
    return DISRUPTOR_OK;
}

uint32_t disruptor_publish_slots_at(disruptor_sender *sender, size_t senders, uint64_t lo, uint64_t hi) {
    struct end *end = end_of(sender);
    (void)senders;
    if (!end) return DISRUPTOR_NOT_OPEN;
    struct ring *ring = end->ring;
    if (end->done == end->begun) return DISRUPTOR_ALREADY_PUBLISHED;
    if (!ring->of_several && lo != end->done) return DISRUPTOR_OUT_OF_ORDER;
    end->done += hi + 1 - lo;
    for (uint64_t s = lo; ring->of_several && s <= hi; s++) atomic_store(&ring->published[s & (ring->size - 1)], s + 1);
    if (!ring->of_several) atomic_store(&ring->cursor, hi + 1);
    return DISRUPTOR_OK;
}

uint32_t disruptor_publish_at(disruptor_sender *sender, size_t senders, uint64_t lo, uint64_t hi) {
    return disruptor_publish_slots_at(sender, senders, lo, hi);
}

uint32_t disruptor_write_bytes_at(disruptor_sender *sender, size_t senders, uint64_t sequence, const uint8_t *bytes, size_t there,
                                  size_t count) {
    struct ring *ring = end_of(sender)->ring;
    (void)senders, (void)there;
    memcpy(ring->events + (sequence & (ring->size - 1)) * ring->width, bytes, count);
    return DISRUPTOR_OK;
}

uint32_t disruptor_write_at(disruptor_sender *sender, size_t senders, uint64_t sequence, const disruptor_event *event, size_t events) {
    (void)events;
    return disruptor_write_bytes_at(sender, senders, sequence, (const uint8_t *)event, sizeof *event, sizeof *event);
}

uint32_t disruptor_close_at(disruptor_sender *sender, size_t senders) {
    struct end *end = end_of(sender);
    (void)senders;
    if (!end) return DISRUPTOR_NOT_OPEN;
    if (end->ring->of_several) return DISRUPTOR_WRONG_END;
    if (end->begun != end->done) return DISRUPTOR_OPEN_CLAIM;
    atomic_store(&end->ring->is_closed, true);
    return DISRUPTOR_OK;
}

/* Up to where events are published, as far as a receiver sees that took all below `from`. */
static uint64_t published(struct ring *ring, uint64_t from) {
    if (!ring->of_several) return atomic_load(&ring->cursor);
    while (atomic_load(&ring->published[from & (ring->size - 1)]) == from + 1) from++;
    return from;
}

uint32_t disruptor_poll_slots_at(disruptor_receiver *receiver, size_t receivers, uint64_t room, disruptor_offer *offer, size_t offers) {
    struct end *end = end_of(receiver);
    (void)receivers, (void)offers;
    if (!end) return DISRUPTOR_NOT_OPEN;
    if (room == 0) return DISRUPTOR_BAD_COUNT;
    struct ring *ring = end->ring;
    const bool is_over = ring->of_several ? atomic_load(&ring->is_halted) : atomic_load(&ring->is_closed);
    const uint64_t claimed = atomic_load(&ring->claimed), upto = published(ring, end->begun);
    const uint64_t gate = least(ring, ring->upstreams[end->number]), there = (upto < gate ? upto : gate) - end->begun;
    const uint64_t count = there < room ? there : room;
    *offer = (disruptor_offer){DISRUPTOR_BATCH, count == there, end->begun, count};
    end->begun += count;
    if (count > 0) return DISRUPTOR_OK;
    const bool is_gating = upto > end->begun || (ring->of_several && claimed > end->begun);
    *offer = (disruptor_offer){is_gating ? DISRUPTOR_GATING : is_over ? DISRUPTOR_DRAINED : DISRUPTOR_IDLE, 0, 0, 0};
    return DISRUPTOR_OK;
}

uint32_t disruptor_poll_bytes_at(disruptor_receiver *receiver, size_t receivers, uint64_t room, disruptor_offer *offer, size_t offers) {
    return disruptor_poll_slots_at(receiver, receivers, room, offer, offers);
}

uint32_t disruptor_read_bytes_at(disruptor_receiver *receiver, size_t receivers, uint64_t sequence, uint8_t *into, size_t there,
                                 size_t count) {
    struct ring *ring = end_of(receiver)->ring;
    (void)receivers, (void)there;
    memcpy(into, ring->events + (sequence & (ring->size - 1)) * ring->width, count);
    return DISRUPTOR_OK;
}

uint32_t disruptor_poll_at(disruptor_receiver *receiver, size_t receivers, disruptor_event *events, size_t places, size_t room,
                           disruptor_offer *offer, size_t offers) {
    const uint32_t refused = disruptor_poll_slots_at(receiver, receivers, room, offer, offers);
    (void)places;
    for (uint64_t k = 0; !refused && k < offer->count; k++)
        disruptor_read_bytes_at(receiver, receivers, offer->first + k, (uint8_t *)&events[k], sizeof *events, sizeof *events);
    return refused;
}

uint32_t disruptor_complete_at(disruptor_receiver *receiver, size_t receivers, uint64_t upto) {
    struct end *end = end_of(receiver);
    (void)receivers;
    if (upto < end->done) return DISRUPTOR_BEHIND;
    if (upto > end->begun) return DISRUPTOR_NOT_TAKEN;
    end->done = upto;
    atomic_store(&end->ring->completed[end->number], upto);
    return DISRUPTOR_OK;
}

uint32_t disruptor_halt_at(disruptor_halter *halter, size_t halters) {
    (void)halters;
    if (!end_of(halter)) return DISRUPTOR_NOT_OPEN;
    atomic_store(&end_of(halter)->ring->is_halted, true);
    return DISRUPTOR_OK;
}

uint32_t disruptor_cursor_at(disruptor_halter *halter, size_t halters, uint64_t *count, size_t numbers) {
    (void)halters, (void)numbers;
    if (!end_of(halter)) return DISRUPTOR_NOT_OPEN;
    struct ring *ring = end_of(halter)->ring;
    *count = atomic_load(ring->of_several ? &ring->claimed : &ring->cursor);
    return DISRUPTOR_OK;
}

uint32_t disruptor_completed_at(disruptor_halter *halter, size_t halters, size_t handler, uint64_t *count, size_t numbers) {
    (void)halters, (void)numbers;
    if (!end_of(halter)) return DISRUPTOR_NOT_OPEN;
    if (handler >= end_of(halter)->ring->handlers) return DISRUPTOR_NO_HANDLER;
    *count = atomic_load(&end_of(halter)->ring->completed[handler]);
    return DISRUPTOR_OK;
}

uint32_t disruptor_progress_at(void *handle, size_t handles, disruptor_counts *counts, size_t places) {
    const struct end *end = end_of(handle);
    (void)handles, (void)places;
    if (!end) return DISRUPTOR_NOT_OPEN;
    if (end->kind == HALTS || (end->kind == SENDS && end->ring->of_several)) return DISRUPTOR_WRONG_END;
    *counts = (disruptor_counts){end->begun, end->done};
    return DISRUPTOR_OK;
}
