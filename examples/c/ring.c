/* A sender and three handlers, a thread each: the second and the third follow the first. Each handler adds what it was
 * handed; the last line says whether all sums are those of what was sent.
 *
 *   ring [EVENTS [CLAIM]]      a million events, by claims of ten */
#define _POSIX_C_SOURCE 200809L
#include "disruptor.h"
#include <pthread.h>
#include <stdio.h>
#include <stdlib.h>
#include <time.h>

enum { SIZE = 1024, HANDLERS = 3 };

struct worker {
    disruptor_receiver *receiver;
    uint64_t sum, count;
    uint32_t refused;
};

static void *handle(void *given) {
    struct worker *worker = given;
    disruptor_event events[SIZE];
    disruptor_waiting waiting = disruptor_waits(SIZE);
    for (;;) {
        disruptor_offer offer;
        worker->refused = disruptor_poll(worker->receiver, events, SIZE, &offer);
        if (worker->refused || offer.kind == DISRUPTOR_DRAINED) return NULL;
        if (offer.kind != DISRUPTOR_BATCH) {
            disruptor_wait(&waiting);
            continue;
        }
        disruptor_found(&waiting, offer.count);
        for (uint64_t k = 0; k < offer.count; k++) worker->sum += events[k].first;
        worker->count += offer.count;
        worker->refused = disruptor_complete(worker->receiver, offer.first + offer.count);
        if (worker->refused) return NULL;
    }
}

/* Sends the numbers from 0 on, and closes the ring. */
static uint32_t send_all(disruptor_sender *sender, uint64_t events, uint64_t claim) {
    disruptor_waiting waiting = disruptor_waits(SIZE);
    uint32_t refused;
    for (uint64_t sent = 0; sent < events;) {
        uint64_t n = events - sent < claim ? events - sent : claim, lo;
        if ((refused = disruptor_claim_within(sender, n, &lo, &waiting, DISRUPTOR_FOREVER))) return refused;
        for (uint64_t k = 0; k < n; k++) {
            disruptor_event event = {sent + k, 0};
            if ((refused = disruptor_write(sender, lo + k, &event))) return refused;
        }
        if ((refused = disruptor_publish(sender, lo, lo + n - 1))) return refused;
        sent += n;
    }
    return disruptor_close(sender);
}

int main(int argc, char **argv) {
    uint64_t events = argc > 1 ? strtoull(argv[1], NULL, 10) : 1000000, claim = argc > 2 ? strtoull(argv[2], NULL, 10) : 10;
    static uint64_t upstreams[HANDLERS];
    /* Not static: a sanitizer takes what a static handle once had for still in use. */
    disruptor_sender sender = DISRUPTOR_NEW;
    disruptor_receiver receivers[HANDLERS] = {DISRUPTOR_NEW};
    disruptor_halter halter = DISRUPTOR_NEW;
    disruptor_before(upstreams, HANDLERS, 0, 1);
    disruptor_before(upstreams, HANDLERS, 0, 2);
    uint32_t refused = disruptor_open(SIZE, DISRUPTOR_MAX_LIMIT, upstreams, HANDLERS, &sender, receivers, HANDLERS, &halter);
    if (refused) {
        fprintf(stderr, "open: %s\n", disruptor_text(refused));
        return 1;
    }
    static struct worker workers[HANDLERS];
    pthread_t threads[HANDLERS];
    struct timespec begun, ended;
    clock_gettime(CLOCK_MONOTONIC, &begun);
    for (int h = 0; h < HANDLERS; h++) {
        workers[h].receiver = &receivers[h];
        if (pthread_create(&threads[h], NULL, handle, &workers[h])) return 1;
    }
    refused = send_all(&sender, events, claim);
    if (refused) {
        fprintf(stderr, "sender: %s\n", disruptor_text(refused));
        exit(1);
    }
    bool right = true;
    for (int h = 0; h < HANDLERS; h++) {
        pthread_join(threads[h], NULL);
        if (workers[h].refused) fprintf(stderr, "handler %d: %s\n", h, disruptor_text(workers[h].refused));
        right = right && !workers[h].refused && workers[h].count == events && workers[h].sum == events * (events - 1) / 2;
        disruptor_free(&receivers[h]);
    }
    clock_gettime(CLOCK_MONOTONIC, &ended);
    disruptor_free(&sender);
    disruptor_free(&halter);
    double seconds = (double)(ended.tv_sec - begun.tv_sec) + 1e-9 * (double)(ended.tv_nsec - begun.tv_nsec);
    fprintf(stderr, "%.1f million events a second\n", (double)events / seconds / 1e6);
    printf("%s\n", right ? "each handler had every event" : "WRONG");
    return !right;
}
