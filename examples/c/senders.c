/* Three senders and two handlers, a thread each, over a ring of slots: the first handler writes its answer into each event, and the
 * second, which follows it, adds the answers. Once every sender is done the ring is halted, and the last line says whether both had
 * all that was sent.
 *
 *   senders [EVENTS [CLAIM]]      of each sender: three hundred thousand events, by claims of ten */
#include "disruptor.h"
#include <pthread.h>
#include <stdio.h>
#include <stdlib.h>

enum { SIZE = 1024, SENDERS = 3, HANDLERS = 2 };

static uint64_t events = 300000, claim = 10;

static struct order {
    uint64_t number, fee;
} orders[SIZE];

struct worker {
    void *end;
    uint64_t sum, count;
    uint32_t refused;
};

static struct order *order_at(uint64_t sequence) {
    return &orders[DISRUPTOR_SLOT(sequence, SIZE)];
}

/* Takes the next orders, once there are some, and answers how many: none where no more come. */
static uint64_t take(struct worker *worker, disruptor_waiting *waiting, uint64_t *first) {
    disruptor_offer offer = {0, 0, 0, 0};
    worker->refused = disruptor_poll_slots_within(worker->end, SIZE, &offer, waiting, DISRUPTOR_FOREVER);
    *first = offer.first;
    return offer.count;
}

static void done(struct worker *worker, uint64_t upto) {
    worker->count = upto;
    worker->refused = disruptor_complete(worker->end, upto);
}

static void *price(void *given) {
    struct worker *worker = given;
    disruptor_waiting waiting = disruptor_waits(SIZE);
    uint64_t first, count;
    while ((count = take(worker, &waiting, &first)) && !worker->refused) {
        for (uint64_t s = first; s < first + count; s++) order_at(s)->fee = 3 * order_at(s)->number;
        done(worker, first + count);
    }
    return NULL;
}

static void *add(void *given) {
    struct worker *worker = given;
    disruptor_waiting waiting = disruptor_waits(SIZE);
    uint64_t first, count;
    while ((count = take(worker, &waiting, &first)) && !worker->refused) {
        for (uint64_t s = first; s < first + count; s++) worker->sum += order_at(s)->fee;
        done(worker, first + count);
    }
    return NULL;
}

/* Sends the numbers from 0 on. */
static void *send_all(void *given) {
    struct worker *worker = given;
    disruptor_waiting waiting = disruptor_waits(SIZE);
    while (worker->count < events) {
        uint64_t n = events - worker->count < claim ? events - worker->count : claim, lo;
        worker->refused = disruptor_claim_within(worker->end, n, &lo, &waiting, DISRUPTOR_FOREVER);
        if (worker->refused) return NULL;
        for (uint64_t k = 0; k < n; k++) order_at(lo + k)->number = worker->count + k;
        if ((worker->refused = disruptor_publish_slots(worker->end, lo, lo + n - 1))) return NULL;
        worker->count += n;
    }
    return NULL;
}

int main(int argc, char **argv) {
    if (argc > 1) events = strtoull(argv[1], NULL, 10);
    if (argc > 2) claim = strtoull(argv[2], NULL, 10);
    static const uint64_t upstreams[HANDLERS] = {0, 1};
    /* Not static: a sanitizer takes what a static handle once had for still in use. */
    disruptor_sender senders[SENDERS] = {DISRUPTOR_NEW};
    disruptor_receiver receivers[HANDLERS] = {DISRUPTOR_NEW};
    disruptor_halter halter = DISRUPTOR_NEW;
    uint32_t refused = disruptor_open_several_slots(SIZE, DISRUPTOR_MAX_LIMIT, upstreams, HANDLERS, senders, SENDERS, receivers,
                                                    HANDLERS, &halter);
    if (refused) {
        fprintf(stderr, "open: %s\n", disruptor_text(refused));
        return 1;
    }
    static struct worker workers[HANDLERS + SENDERS];
    pthread_t threads[HANDLERS + SENDERS];
    for (int k = 0; k < HANDLERS + SENDERS; k++) {
        workers[k].end = k < HANDLERS ? (void *)&receivers[k] : (void *)&senders[k - HANDLERS];
        if (pthread_create(&threads[k], NULL, k == 0 ? price : k == 1 ? add : send_all, &workers[k])) return 1;
    }
    bool right = true;
    for (int k = HANDLERS; k < HANDLERS + SENDERS; k++) {
        pthread_join(threads[k], NULL);
        if (workers[k].refused) fprintf(stderr, "sender: %s\n", disruptor_text(workers[k].refused));
        right = right && !workers[k].refused;
        disruptor_free(&senders[k - HANDLERS]);
    }
    right = disruptor_halt(&halter) == DISRUPTOR_OK && right;
    for (int k = 0; k < HANDLERS; k++) {
        pthread_join(threads[k], NULL);
        if (workers[k].refused) fprintf(stderr, "handler: %s\n", disruptor_text(workers[k].refused));
        right = right && !workers[k].refused && workers[k].count == SENDERS * events;
        disruptor_free(&receivers[k]);
    }
    right = right && workers[1].sum == SENDERS * (3 * events * (events - 1) / 2);
    disruptor_free(&halter);
    printf("%s\n", right ? "each handler had every event" : "WRONG");
    return !right;
}
