/* A sender and a handler, which sleep while there is nothing for them: each of a hundred thousand lone events wakes the handler,
 * and idleness costs next to no processor time.
 *
 *   bell [EVENTS [MILLIS]]      a hundred thousand events, after a fifth of a second of idleness */
#define _POSIX_C_SOURCE 200809L
#include "disruptor.h"
#include <pthread.h>
#include <stdio.h>
#include <stdlib.h>
#include <time.h>

static disruptor_bell bell = DISRUPTOR_NEW_BELL;

struct worker {
    disruptor_receiver *receiver;
    /* How many events came, and how many of them over ten milliseconds after they were written. */
    uint64_t count, late;
    uint32_t refused;
};

static uint64_t now(clockid_t clock) {
    struct timespec time;
    clock_gettime(clock, &time);
    return (uint64_t)time.tv_sec * 1000000000 + (uint64_t)time.tv_nsec;
}

/* Waits as one whose first looks found nothing: the second wait in a row sleeps. */
static disruptor_waiting sleeps_at_once(void) {
    disruptor_waiting waiting = disruptor_waits_by(1, &bell);
    waiting.looks = DISRUPTOR_MOST_LOOKS;
    return waiting;
}

static void *handle(void *given) {
    struct worker *worker = given;
    disruptor_waiting waiting = sleeps_at_once();
    for (;;) {
        disruptor_event event;
        disruptor_offer offer;
        worker->refused = disruptor_poll(worker->receiver, &event, 1, &offer);
        if (worker->refused || offer.kind == DISRUPTOR_DRAINED) return NULL;
        if (offer.kind != DISRUPTOR_BATCH) {
            disruptor_wait(&waiting);
            continue;
        }
        waiting = sleeps_at_once();
        worker->count++;
        worker->late += now(CLOCK_MONOTONIC) - event.first > 10000000;
        worker->refused = disruptor_complete(worker->receiver, offer.first + 1);
        if (worker->refused) return NULL;
        disruptor_ring(&bell);
        /* A little slower each time, so that now and then an event comes just when it is about to sleep. */
        for (volatile uint64_t k = 0; k < worker->count % 192; k++) continue;
    }
}

/* Sends one event at a time, each as soon as the one before is completed, and closes the ring. It sleeps for every fourth, and
 * mostly looks again and again for the others. */
static uint32_t send_all(disruptor_sender *sender, uint64_t events) {
    disruptor_waiting waiting = sleeps_at_once();
    uint32_t refused;
    for (uint64_t sent = 0, looks = 0; sent < events; looks++) {
        uint64_t lo;
        refused = disruptor_claim(sender, 1, &lo);
        if (refused == DISRUPTOR_NO_ROOM) {
            if (sent % 4 == 0 || looks > 1000) disruptor_wait(&waiting);
            continue;
        }
        if (refused) return refused;
        looks = 0;
        waiting = sleeps_at_once();
        disruptor_event event = {now(CLOCK_MONOTONIC), 0};
        if ((refused = disruptor_write(sender, lo, &event))) return refused;
        if ((refused = disruptor_publish(sender, lo, lo))) return refused;
        disruptor_ring(&bell);
        sent++;
    }
    refused = disruptor_close(sender);
    disruptor_ring(&bell);
    return refused;
}

/* How much processor time so many nanoseconds cost in which nothing comes. */
static uint64_t cost_of(uint64_t idle) {
    struct timespec pause = {(time_t)(idle / 1000000000), (long)(idle % 1000000000)};
    uint64_t before = now(CLOCK_PROCESS_CPUTIME_ID);
    nanosleep(&pause, NULL);
    return now(CLOCK_PROCESS_CPUTIME_ID) - before;
}

int main(int argc, char **argv) {
    uint64_t events = argc > 1 ? strtoull(argv[1], NULL, 10) : 100000, idle = (argc > 2 ? strtoull(argv[2], NULL, 10) : 200) * 1000000;
    static const uint64_t upstreams[1] = {0};
    disruptor_sender sender = DISRUPTOR_NEW;
    disruptor_receiver receiver = DISRUPTOR_NEW;
    disruptor_halter halter = DISRUPTOR_NEW;
    /* One slot, so that each event is alone. */
    uint32_t refused = disruptor_open(1, DISRUPTOR_MAX_LIMIT, upstreams, 1, &sender, &receiver, 1, &halter);
    if (refused) {
        fprintf(stderr, "open: %s\n", disruptor_text(refused));
        return 1;
    }
    static struct worker worker;
    pthread_t thread;
    worker.receiver = &receiver;
    if (pthread_create(&thread, NULL, handle, &worker)) return 1;
    uint64_t cost = cost_of(idle), begun = now(CLOCK_MONOTONIC);
    refused = send_all(&sender, events);
    if (refused) {
        fprintf(stderr, "sender: %s\n", disruptor_text(refused));
        exit(1);
    }
    pthread_join(thread, NULL);
    if (worker.refused) fprintf(stderr, "handler: %s\n", disruptor_text(worker.refused));
    fprintf(stderr, "%.2f ms of processor time in %.0f ms of idleness, %.1f us an event, %.0f late\n", (double)cost * 1e-6,
            (double)idle * 1e-6, (double)(now(CLOCK_MONOTONIC) - begun) * 1e-3 / (double)events, (double)worker.late);
    disruptor_counts counts = {0, 0};
    bool right = !worker.refused && worker.count == events && !disruptor_progress(&receiver, &counts) && counts.done == events;
    disruptor_free(&sender);
    disruptor_free(&receiver);
    disruptor_free(&halter);
    /* (a machine that is busy with other programs holds up some) */
    bool in_time = worker.late <= events / 5000, cheap = cost <= idle / 20;
    printf("%s\n%s\n%s\n", right ? "the handler had every event" : "WRONG", in_time ? "each came in time" : "MANY CAME LATE",
           cheap ? "idleness costs next to nothing" : "IDLENESS IS DEAR");
    return !(right && in_time && cheap);
}
