/* Events a second from C over the proved rings, a thread for each end: as the programs of bench/plain/exchanges it prints one
 * line, with the round in the middle.
 *
 *   rates [slots] TOPOLOGY SIZE SECONDS ROUNDS
 *
 * With `slots` the events lie in an array of this program, and else in the ring.
 * TOPOLOGY is unicast, pipeline, multicast or diamond, after sendersP- for P senders of one ring, and before -bN for claims
 * of N events. With `slots`, bytesN- before all that stands for events of 16, 64, 256, 1024 or 4096 bytes, else they have 16. A handler
 * adds up all words that it receives; a wrong sum ends the program. */
#define _POSIX_C_SOURCE 200809L
#include "disruptor.h"
#include <pthread.h>
#include <stdio.h>
#include <stdlib.h>
#include <string.h>
#include <time.h>

enum { MOST_HANDLERS = 3, MOST_SENDERS = 16, MOST_AT_ONCE = 1024, STRETCH = 65536, WORD = 8 };

static struct order {
    uint64_t size, claim;
    double seconds;
    size_t senders, handlers, words;
    uint64_t upstreams[MOST_HANDLERS];
    bool in_slots;
} order;

static uint64_t *slots;

static struct ring {
    disruptor_sender senders[MOST_SENDERS];
    disruptor_receiver receivers[MOST_HANDLERS];
    disruptor_halter halter;
} ring;

/* Those of different threads lie in cache lines of their own. */
struct worker {
    DISRUPTOR_ALIGNED pthread_t thread;
    void *end;
    uint64_t count, sum;
};

static void must(uint32_t refused, const char *call) {
    if (!refused) return;
    fprintf(stderr, "%s: %s\n", call, disruptor_text(refused));
    exit(5);
}

static double now(void) {
    struct timespec time;
    clock_gettime(CLOCK_MONOTONIC, &time);
    return (double)time.tv_sec + (double)time.tv_nsec * 1e-9;
}

/* Of one width the compiler knows how many words an event has. */
#define BY_WIDTH(call) \
    switch (order.words) { \
        case 2: call(2); break; \
        case 8: call(8); break; \
        case 32: call(32); break; \
        case 128: call(128); break; \
        default: call(512); \
    }
#define INLINE static inline __attribute__((always_inline))

INLINE void fill(uint64_t lo, uint64_t number, size_t words) {
    const uint64_t claim = order.claim, size = order.size;
    uint64_t *const all = slots;
    for (uint64_t k = 0; k < claim; k++) {
        uint64_t *event = all + DISRUPTOR_SLOT(lo + k, size) * words;
        event[0] = number + k;
        for (size_t word = 1; word < words; word++) event[word] = 0;
    }
}

INLINE uint64_t sum_in_slots(const disruptor_offer *offer, size_t words) {
    uint64_t sum = 0;
    for (uint64_t k = 0; k < offer->count; k++) {
        const uint64_t *event = slots + DISRUPTOR_SLOT(offer->first + k, order.size) * words;
        for (size_t word = 0; word < words; word++) sum += event[word];
    }
    return sum;
}

static void write_all(struct worker *sender, uint64_t lo) {
    for (uint64_t k = 0; k < order.claim; k++) {
        disruptor_event event = {sender->count + k, 0};
        must(disruptor_write(sender->end, lo + k, &event), "write");
    }
}

/* Claims, writes and publishes the next events of a sender. */
static void send_next(struct worker *sender, disruptor_waiting *waiting) {
    uint64_t lo, n = order.claim;
    must(disruptor_claim_within(sender->end, n, &lo, waiting, DISRUPTOR_FOREVER), "claim");
#define FILL(words) fill(lo, sender->count, words)
    if (order.in_slots) BY_WIDTH(FILL)
    else write_all(sender, lo);
    if (order.in_slots) must(disruptor_publish_slots(sender->end, lo, lo + n - 1), "publish");
    else must(disruptor_publish(sender->end, lo, lo + n - 1), "publish");
    sender->count += n;
}

/* Sends until the time is over. */
static void *send_all(void *given) {
    struct worker *sender = given;
    disruptor_waiting waiting = disruptor_waits(order.size);
    double begun = now();
    do {
        for (uint64_t k = 0; k < STRETCH / order.claim; k++) send_next(sender, &waiting);
    } while (now() - begun < order.seconds);
    return NULL;
}

/* What a handler took: in slots it lies where it was written. */
static uint64_t sum_of(const disruptor_event *taken, const disruptor_offer *offer) {
    uint64_t sum = 0;
#define ADD(words) return sum_in_slots(offer, words)
    if (order.in_slots) BY_WIDTH(ADD)
    for (uint64_t k = 0; k < offer->count; k++) sum += taken[k].first + taken[k].second;
    return sum;
}

/* Adds up what a handler receives, until its ring drained. */
static void *receive_all(void *given) {
    struct worker *handler = given;
    disruptor_event taken[MOST_AT_ONCE];
    disruptor_waiting waiting = disruptor_waits(order.size < MOST_AT_ONCE ? order.size : MOST_AT_ONCE);
    for (;;) {
        disruptor_offer offer;
        if (order.in_slots) must(disruptor_poll_slots(handler->end, MOST_AT_ONCE, &offer), "poll");
        else must(disruptor_poll(handler->end, taken, MOST_AT_ONCE, &offer), "poll");
        if (offer.kind == DISRUPTOR_DRAINED) return NULL;
        if (offer.kind != DISRUPTOR_BATCH) {
            disruptor_wait(&waiting);
            continue;
        }
        handler->sum += sum_of(taken, &offer);
        handler->count += offer.count;
        must(disruptor_complete(handler->end, offer.first + offer.count), "complete");
        disruptor_found(&waiting, offer.count);
    }
}

static void open_ring(void) {
    memset(&ring, 0, sizeof ring);
    if (order.senders)
        must(disruptor_open_several(order.size, DISRUPTOR_MAX_LIMIT, order.upstreams, order.handlers, ring.senders, order.senders,
                                    ring.receivers, order.handlers, &ring.halter), "open");
    else if (order.in_slots)
        must(disruptor_open_slots(order.size, DISRUPTOR_MAX_LIMIT, order.upstreams, order.handlers, ring.senders, ring.receivers,
                                  order.handlers, &ring.halter), "open");
    else
        must(disruptor_open(order.size, DISRUPTOR_MAX_LIMIT, order.upstreams, order.handlers, ring.senders, ring.receivers,
                            order.handlers, &ring.halter), "open");
}

static void start(struct worker *worker, void *end, void *(*work)(void *)) {
    *worker = (struct worker){.end = end};
    if (pthread_create(&worker->thread, NULL, work, worker)) exit(6);
}

/* One round over a ring of its own, from the first claim until the last handler has taken all: how long it took. */
static double play(uint64_t *events) {
    static struct worker senders[MOST_SENDERS], handlers[MOST_HANDLERS];
    size_t count = order.senders ? order.senders : 1;
    open_ring();
    for (size_t h = 0; h < order.handlers; h++) start(&handlers[h], &ring.receivers[h], receive_all);
    double begun = now();
    for (size_t p = 0; p < count; p++) start(&senders[p], &ring.senders[p], send_all);
    uint64_t sum = 0;
    *events = 0;
    for (size_t p = 0; p < count; p++) {
        pthread_join(senders[p].thread, NULL);
        *events += senders[p].count;
        sum += senders[p].count * (senders[p].count - 1) / 2;
    }
    if (order.senders) must(disruptor_halt(&ring.halter), "halt");
    else must(disruptor_close(&ring.senders[0]), "close");
    for (size_t h = 0; h < order.handlers; h++) pthread_join(handlers[h].thread, NULL);
    double took = now() - begun;
    for (size_t h = 0; h < order.handlers; h++) {
        if (handlers[h].sum != sum) fprintf(stderr, "wrong sum\n"), exit(5);
        disruptor_free(&ring.receivers[h]);
    }
    for (size_t p = 0; p < count; p++) disruptor_free(&ring.senders[p]);
    disruptor_free(&ring.halter);
    return took;
}

/* Whether events may have so many words. */
static bool has_width(void) {
    static const size_t widths[] = {2, 8, 32, 128, 512};
    bool found = false;
    for (size_t k = 0; k < sizeof widths / sizeof *widths; k++) found |= order.words == widths[k];
    return found && (order.in_slots || order.words == 2);
}

/* Reads a topology's name; answers whether there is such a one. */
static bool read_topology(char *name) {
    static const struct { const char *name; size_t handlers; uint64_t upstreams[MOST_HANDLERS]; } shapes[] = {
        {"unicast", 1, {0}}, {"pipeline", 3, {0, 1, 2}}, {"multicast", 3, {0, 0, 0}}, {"diamond", 3, {0, 0, 3}}};
    char *word = strtok(name, "-");
    order.words = 2;
    if (word && strncmp(word, "bytes", 5) == 0) {
        order.words = strtoull(word + 5, NULL, 10) / WORD;
        word = strtok(NULL, "-");
    }
    if (word && strncmp(word, "senders", 7) == 0) {
        order.senders = strtoull(word + 7, NULL, 10);
        if (order.senders < 1 || order.senders > MOST_SENDERS) return false;
        word = strtok(NULL, "-");
    }
    for (size_t k = 0; word && k < sizeof shapes / sizeof *shapes; k++) {
        if (strcmp(word, shapes[k].name)) continue;
        order.handlers = shapes[k].handlers;
        memcpy(order.upstreams, shapes[k].upstreams, sizeof order.upstreams);
    }
    word = strtok(NULL, "-");
    order.claim = word ? strtoull(word + 1, NULL, 10) : 1;
    return order.handlers > 0 && order.claim > 0 && has_width();
}

static int by_rate(const void *one, const void *other) {
    double a = *(const double *)one, b = *(const double *)other;
    return (a > b) - (a < b);
}

int main(int argc, char **argv) {
    char name[64] = "";
    if (argc == 6 && strcmp(argv[1], "slots") == 0) order.in_slots = true, argc--, argv++;
    if (argc == 5) strncpy(name, argv[1], sizeof name - 1);
    int rounds = argc == 5 ? atoi(argv[4]) : 0;
    if (rounds < 1 || rounds > 1000 || !read_topology(name)) {
        fprintf(stderr, "usage: rates [slots] TOPOLOGY SIZE SECONDS ROUNDS\n");
        return 1;
    }
    order.size = strtoull(argv[2], NULL, 10);
    order.seconds = strtod(argv[3], NULL);
    if (order.claim > order.size) order.claim = order.size;
    slots = aligned_alloc(4096, order.size * 4096);
    if (!slots) exit(6);
    static double rates[1000];
    uint64_t events = 0;
    for (int k = 0; k < rounds; k++) {
        double took = play(&events);
        rates[k] = (double)events / took;
    }
    qsort(rates, (size_t)rounds, sizeof *rates, by_rate);
    printf("%s %s %s %.0f\n", order.in_slots ? "c-slots" : "c", argv[1], argv[2], rates[rounds / 2]);
    return 0;
}
