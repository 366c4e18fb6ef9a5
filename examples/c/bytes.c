/* A feed and two handlers, a thread each, over a ring of bytes: an order of 32 bytes goes to a journal, and then to a matching
 * engine. Each adds up what it was handed; the last line says whether both had every order, whole.
 *
 *   bytes [ORDERS [CLAIM]]      a million orders, by claims of ten */
#include "disruptor.h"
#include <pthread.h>
#include <stdio.h>
#include <stdlib.h>

enum { SIZE = 1024, HANDLERS = 2 };

struct order {
    uint64_t number, account;
    uint32_t price, quantity;
    char symbol[8];
};
_Static_assert(sizeof(struct order) == 32, "an order has 32 bytes");

static struct order order_of(uint64_t number) {
    struct order order = {number, number % 7, (uint32_t)(100 + number % 10), (uint32_t)(1 + number % 3), "RATTLE"};
    return order;
}

struct worker {
    disruptor_receiver *receiver;
    uint64_t count, quantity;
    bool whole;
    uint32_t refused;
};

/* Reads the orders of a batch, and completes them. */
static uint32_t handle_batch(struct worker *worker, const disruptor_offer *offer) {
    for (uint64_t k = 0; k < offer->count; k++) {
        struct order order, sent = order_of(worker->count);
        uint32_t refused = disruptor_read_bytes(worker->receiver, offer->first + k, &order, sizeof order);
        if (refused) return refused;
        worker->whole = worker->whole && order.number == sent.number && order.account == sent.account && order.price == sent.price
                        && order.quantity == sent.quantity && order.symbol[5] == 'E' && order.symbol[6] == 0;
        worker->quantity += order.quantity;
        worker->count++;
    }
    return disruptor_complete(worker->receiver, offer->first + offer->count);
}

static void *handle(void *given) {
    struct worker *worker = given;
    disruptor_waiting waiting = disruptor_waits(SIZE);
    worker->whole = true;
    for (;;) {
        disruptor_offer offer;
        worker->refused = disruptor_poll_bytes(worker->receiver, SIZE, &offer);
        if (worker->refused || offer.kind == DISRUPTOR_DRAINED) return NULL;
        if (offer.kind != DISRUPTOR_BATCH) {
            disruptor_wait(&waiting);
            continue;
        }
        disruptor_found(&waiting, offer.count);
        if ((worker->refused = handle_batch(worker, &offer))) return NULL;
    }
}

/* Sends the orders, and closes the ring. */
static uint32_t feed(disruptor_sender *sender, uint64_t orders, uint64_t claim) {
    disruptor_waiting waiting = disruptor_waits(SIZE);
    uint32_t refused;
    for (uint64_t sent = 0; sent < orders;) {
        uint64_t n = orders - sent < claim ? orders - sent : claim, lo;
        if ((refused = disruptor_claim_within(sender, n, &lo, &waiting, DISRUPTOR_FOREVER))) return refused;
        for (uint64_t k = 0; k < n; k++) {
            struct order order = order_of(sent + k);
            if ((refused = disruptor_write_bytes(sender, lo + k, &order, sizeof order))) return refused;
        }
        if ((refused = disruptor_publish(sender, lo, lo + n - 1))) return refused;
        sent += n;
    }
    return disruptor_close(sender);
}

int main(int argc, char **argv) {
    uint64_t orders = argc > 1 ? strtoull(argv[1], NULL, 10) : 1000000, claim = argc > 2 ? strtoull(argv[2], NULL, 10) : 10;
    static const uint64_t upstreams[HANDLERS] = {0, 1};
    static struct worker workers[HANDLERS];
    pthread_t threads[HANDLERS];
    disruptor_sender sender = DISRUPTOR_NEW;
    disruptor_receiver receivers[HANDLERS] = {DISRUPTOR_NEW};
    disruptor_halter halter = DISRUPTOR_NEW;
    uint32_t refused = disruptor_open_bytes(SIZE, DISRUPTOR_MAX_LIMIT, sizeof(struct order), upstreams, HANDLERS, &sender,
                                            receivers, HANDLERS, &halter);
    if (refused) {
        fprintf(stderr, "open: %s\n", disruptor_text(refused));
        return 1;
    }
    for (int h = 0; h < HANDLERS; h++) {
        workers[h].receiver = &receivers[h];
        if (pthread_create(&threads[h], NULL, handle, &workers[h])) return 1;
    }
    refused = feed(&sender, orders, claim);
    if (refused) {
        fprintf(stderr, "feed: %s\n", disruptor_text(refused));
        exit(1);
    }
    uint64_t quantity = 0;
    for (uint64_t number = 0; number < orders; number++) quantity += order_of(number).quantity;
    bool right = true;
    for (int h = 0; h < HANDLERS; h++) {
        pthread_join(threads[h], NULL);
        if (workers[h].refused) fprintf(stderr, "handler %d: %s\n", h, disruptor_text(workers[h].refused));
        right = right && !workers[h].refused && workers[h].whole && workers[h].count == orders && workers[h].quantity == quantity;
        disruptor_free(&receivers[h]);
    }
    disruptor_free(&sender);
    disruptor_free(&halter);
    printf("%s\n", right ? "each handler had every order, whole" : "WRONG");
    return !right;
}
