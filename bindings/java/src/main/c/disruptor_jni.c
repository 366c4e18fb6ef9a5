/* The native side of Native.java: the calls of disruptor.h that a ring of slots needs. They take and answer numbers, and addresses of
 * handles, so none touches an object of Java. A refusal is answered by its number, below zero where the answer is a count. */
#include "disruptor.h"
#include <jni.h>
#include <stdlib.h>
#include <string.h>

#define NATIVE(type, name, ...) \
    JNIEXPORT type JNICALL Java_org_verified_disruptor_Native_##name(JNIEnv *env __attribute__((unused)), \
                                                                     jclass native __attribute__((unused)), __VA_ARGS__)

/* A handle of any kind. Those of a ring lie one after another: its senders, its receivers and its halter. */
typedef union handle {
    disruptor_sender sender;
    disruptor_receiver receiver;
    disruptor_halter halter;
} handle;
/* (Java has this number too) */
DISRUPTOR_HOLDS(sizeof(handle) == 128);

static handle *handle_at(jlong address) {
    return (handle *)(uintptr_t)address;
}

/* Opens a ring of so many senders, or of one where that is 0, and answers the address of its handles. As much memory lies behind
 * them, for what calls that Java makes itself answer. */
NATIVE(jlong, open, jlong size, jlong limit, jlongArray upstreams, jint senders) {
    /* (more handlers than 16 are refused by the ring, however many) */
    enum { MOST = 17 };
    const jsize there = (*env)->GetArrayLength(env, upstreams);
    const size_t handlers = there < MOST ? (size_t)there : MOST, ends = senders > 0 ? (size_t)senders : 1;
    uint64_t masks[MOST];
    jlong given[MOST];
    (*env)->GetLongArrayRegion(env, upstreams, 0, (jsize)handlers, given);
    for (size_t k = 0; k < handlers; k++) masks[k] = (uint64_t)given[k];
    const size_t bytes = 2 * sizeof(handle) * (ends + handlers + 1);
    handle *handles = aligned_alloc(sizeof(handle), bytes);
    if (!handles) return -DISRUPTOR_NO_MEMORY;
    memset(handles, 0, bytes);
    disruptor_sender *sending = &handles->sender;
    disruptor_receiver *receiving = &handles[ends].receiver;
    disruptor_halter *halter = &handles[ends + handlers].halter;
    const uint32_t refused =
        senders ? disruptor_open_several_slots(size, limit, masks, handlers, sending, ends, receiving, handlers, halter)
                : disruptor_open_slots(size, limit, masks, handlers, sending, receiving, handlers, halter);
    if (!refused) return (jlong)(uintptr_t)handles;
    free(handles);
    return -(jlong)refused;
}

/* Frees the handles of a ring, and their memory. */
NATIVE(void, free, jlong at, jint count) {
    handle *handles = handle_at(at);
    for (jint k = 0; k < count; k++) disruptor_free(&handles[k]);
    free(handles);
}

/* The first of n sequences. */
NATIVE(jlong, claim, jlong at, jlong answer, jlong n) {
    (void)answer;
    uint64_t lo;
    const uint32_t refused = disruptor_claim(&handle_at(at)->sender, n, &lo);
    return refused ? -(jlong)refused : (jlong)lo;
}

NATIVE(jint, publish, jlong at, jlong lo, jlong hi) {
    return (jint)disruptor_publish_slots(&handle_at(at)->sender, lo, hi);
}

NATIVE(jint, close, jlong at) {
    return (jint)disruptor_close(&handle_at(at)->sender);
}

/* How many events a batch has, or that there is none: -1 gating, -2 idle, -3 drained; a refusal is 16 and more below zero. */
NATIVE(jlong, poll, jlong at, jlong answer, jlong room) {
    (void)answer;
    disruptor_offer offer;
    const uint32_t refused = disruptor_poll_slots(&handle_at(at)->receiver, room, &offer);
    if (refused) return -16 - (jlong)refused;
    return offer.kind == DISRUPTOR_BATCH ? (jlong)offer.count : -(jlong)offer.kind;
}

NATIVE(jint, complete, jlong at, jlong upto) {
    return (jint)disruptor_complete(&handle_at(at)->receiver, upto);
}

NATIVE(jint, halt, jlong at) {
    return (jint)disruptor_halt(&handle_at(at)->halter);
}

/* How far the senders came. */
NATIVE(jlong, cursor, jlong at, jlong answer) {
    (void)answer;
    uint64_t count = 0;
    const uint32_t refused = disruptor_cursor(&handle_at(at)->halter, &count);
    return refused ? -(jlong)refused : (jlong)count;
}

/* How many events a handler completed. */
NATIVE(jlong, completed, jlong at, jlong answer, jlong handler) {
    (void)answer;
    uint64_t count = 0;
    const uint32_t refused = disruptor_completed_by(&handle_at(at)->halter, (size_t)handler, &count);
    return refused ? -(jlong)refused : (jlong)count;
}
