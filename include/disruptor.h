/* The proved rings for C, and for every language that calls C: one sender or several hand events to a graph of handlers, each end on
 * a thread of its own. The events are of your own type and lie in an array of yours (a ring of slots), or the ring has them: two
 * words each, or as many bytes as you say. No call waits but disruptor_wait, disruptor_sleep and those that end in _within, and none
 * but the openings and disruptor_free takes memory or gives it back.
 *
 * Each call that lists refusals answers DISRUPTOR_OK or the number of one (DISRUPTOR_REFUSALS): the first for which there is
 * cause. A refused call changes nothing; at most it has looked at what other ends stored, and one of disruptor_publish_slots has
 * counted sequences as written.
 *
 * What you owe. Of these nothing can be checked, so a program that breaks one of them is undefined:
 *   - A handle is all zeros before it is first opened (DISRUPTOR_NEW), only calls change it, and it is never copied: its
 *     bytes may go elsewhere if the old ones are not used again. It may lie wherever its type may: it is aligned to 128 bytes, so
 *     memory for it, or for what it is part of, is that of aligned_alloc(128, ..) and not of malloc.
 *   - One call at a time has a handle. An open handle may go from one thread to another by what orders the two: a thread's
 *     start or join, a lock, or an atomic of sequential consistency. Handles of one ring may be used at the same time.
 *   - A pointer that is neither null nor misaligned points to as much as the call says, which no other pointer of the call, no
 *     other call and no other thread has meanwhile.
 *   - No call is made in a signal handler, or in a process that was forked from one with several threads.
 *   - malloc and free are of one allocator, and malloc aligns as C says.
 * All else is checked: every number, a handle that is zero or was freed, and one of another kind. A pointer that is null or
 * not aligned to eight bytes is refused with BAD_POINTER by each call that lists it, and so is an array longer than memory; an
 * array of no elements may be null, and bytes may lie anywhere. */
#ifndef DISRUPTOR_H
#define DISRUPTOR_H

#define DISRUPTOR_VERSION "0.1.0"

#include <stdbool.h>
#include <stddef.h>
#include <stdint.h>
#include <sched.h>
#include <time.h>
#ifdef __linux__
#include <sys/syscall.h>
#include <unistd.h>
/* FUTEX_WAIT_PRIVATE and FUTEX_WAKE_PRIVATE of the kernel's header, which need not be here, and CLOCK_MONOTONIC. */
enum { DISRUPTOR_FUTEX_WAIT = 128, DISRUPTOR_FUTEX_WAKE = 129, DISRUPTOR_MONOTONIC = 1 };
#ifndef __cplusplus
long syscall(long number, ...); /* (strict C hides it in unistd.h) */
#endif
#endif

#ifdef __cplusplus
#define DISRUPTOR_ALIGNED alignas(128)
#define DISRUPTOR_HOLDS(fact) static_assert(fact, #fact)
extern "C" {
#else
#define DISRUPTOR_ALIGNED _Alignas(128)
#define DISRUPTOR_HOLDS(fact) _Static_assert(fact, #fact)
#endif

/* Two handles that two threads use lie in cache lines of their own: in one line they cost three quarters of the speed. */
#define DISRUPTOR_HANDLE { DISRUPTOR_ALIGNED void *at; uint64_t state; uint64_t rest[14]; }
/* An end that claims, writes and publishes; the one of a ring of one sender also closes it. */
typedef struct disruptor_sender DISRUPTOR_HANDLE disruptor_sender;
/* The end of one handler, which receives every event after its upstreams. */
typedef struct disruptor_receiver DISRUPTOR_HANDLE disruptor_receiver;
/* An end that halts the ring from any thread, and tells how far it came. */
typedef struct disruptor_halter DISRUPTOR_HANDLE disruptor_halter;
#define DISRUPTOR_NEW {0, 0, {0}}

/* An event: its meaning is yours. */
typedef struct disruptor_event { uint64_t first, second; } disruptor_event;

/* What a poll answers. A batch has `count` events from the sequence `first` on, and `end` is 1 where nothing else was
 * available. Of the other kinds all but `kind` is 0. */
typedef struct disruptor_offer { uint32_t kind, end; uint64_t first, count; } disruptor_offer;
enum {
    DISRUPTOR_BATCH = 0,   /* events */
    DISRUPTOR_GATING = 1,  /* none yet: an upstream has not completed it, or one of several senders not published its claim */
    DISRUPTOR_IDLE = 2,    /* none: nothing more is published */
    DISRUPTOR_DRAINED = 3  /* none, for good: the ring is closed, or of several senders halted, and the handler took every event */
};

/* How far an end came, by its own calls: how many sequences a sender claimed and how many events it published, or how many events
 * a handler took and how many it completed. */
typedef struct disruptor_counts { uint64_t begun, done; } disruptor_counts;

/* The library has these sizes too. */
DISRUPTOR_HOLDS(sizeof(disruptor_sender) == 128 && sizeof(disruptor_receiver) == 128 && sizeof(disruptor_halter) == 128);
DISRUPTOR_HOLDS(sizeof(disruptor_event) == 16 && sizeof(disruptor_offer) == 24 && sizeof(disruptor_counts) == 16);
DISRUPTOR_HOLDS(sizeof(size_t) == 8);

/* Each refusal: its number, which stays the same in every release, its name, the text that disruptor_text gives, and what
 * to do. */
#define DISRUPTOR_REFUSALS(of) \
    of(1, NO_ROOM, "no-room", "a final handler has not completed the events in the slots: wait, and claim again") \
    of(2, HALTED, "halted", "the ring is halted, for good: publish what is claimed, and end") \
    of(3, BAD_COUNT, "bad-count", "none, or more than there can be; or not a receiver for each handler") \
    of(4, EXHAUSTED, "exhausted", "the claim goes past the limit of sequences") \
    of(5, NOT_CLAIMED, "not-claimed", "nobody claimed the sequence, or another sender did") \
    of(6, ALREADY_PUBLISHED, "already-published", "the sequence is published, and its event may be read by then") \
    of(7, NOT_WRITTEN, "not-written", "a sequence of the stretch has no event yet") \
    of(8, OUT_OF_ORDER, "out-of-order", "an earlier sequence is not published") \
    of(9, NOT_TAKEN, "not-taken", "the handler has not taken so many events") \
    of(10, BEHIND, "behind", "the handler has completed more already") \
    of(12, NO_HANDLER, "no-handler", "the ring has no handler of that number") \
    of(16, CONTENDED, "contended", "another sender claimed meanwhile: claim again") \
    of(25, TOO_MANY, "too-many", "there would be more than 16 handlers") \
    of(26, NO_HANDLERS, "no-handlers", "there would be no handler") \
    of(31, BAD_SIZE, "bad-size", "the size is no power of two from 1 to 65536") \
    of(32, BAD_PRODUCERS, "bad-producers", "there would be no senders, or more than 16") \
    of(33, BAD_LIMIT, "bad-limit", "the limit of sequences is 0 or above 2^62") \
    of(40, NO_MEMORY, "no-memory", "an allocation failed") \
    of(41, OPEN_CLAIM, "open-claim", "a claimed sequence is not published") \
    of(61, NOT_OPEN, "not-open", "the handle is zero, or was freed") \
    of(62, WRONG_END, "wrong-end", "the handle has an end of another kind") \
    of(63, STILL_OPEN, "still-open", "a handle that would be opened is open: free it first") \
    of(64, BAD_ORDER, "bad-order", "a handler's mask names itself, or one after it") \
    of(65, BAD_POINTER, "bad-pointer", "a pointer is null or not aligned, or an array is longer than memory") \
    of(66, BAD_LENGTH, "bad-length", "there are not as many bytes as an event of the ring has") \
    of(67, NOT_IN_HAND, "not-in-hand", "the handler has not taken the event, or has completed it")
#define DISRUPTOR_NUMBER(number, name, text, why) DISRUPTOR_##name = number,
enum { DISRUPTOR_OK = 0, DISRUPTOR_REFUSALS(DISRUPTOR_NUMBER) };
/* The greatest limit of sequences. */
#define DISRUPTOR_MAX_LIMIT (UINT64_C(1) << 62)

/* What the library exports. A pointer comes with how many things lie there, 1 or none; `handlers`, `count` and `room` say how
 * long an array was said to be. A pointer that leads to nothing is refused with BAD_POINTER. It may not be null itself: for
 * none pass any aligned address that stands. The calls below do so; other languages call these. */
uint32_t disruptor_open_at(uint64_t size, uint64_t limit, const uint64_t *upstreams, size_t masks, size_t handlers,
                           disruptor_sender *sender, size_t senders, disruptor_receiver *receivers, size_t places,
                           size_t count, disruptor_halter *halter, size_t halters);
uint32_t disruptor_open_several_at(uint64_t size, uint64_t limit, const uint64_t *upstreams, size_t masks, size_t handlers,
                                   disruptor_sender *senders, size_t ends, size_t count, disruptor_receiver *receivers,
                                   size_t places, size_t rooms, disruptor_halter *halter, size_t halters);
uint32_t disruptor_open_bytes_at(uint64_t size, uint64_t limit, size_t bytes, const uint64_t *upstreams, size_t masks,
                                 size_t handlers, disruptor_sender *sender, size_t senders, disruptor_receiver *receivers,
                                 size_t places, size_t count, disruptor_halter *halter, size_t halters);
void disruptor_free_at(void *handles, size_t count);
uint32_t disruptor_claim_at(disruptor_sender *sender, size_t senders, uint64_t n, uint64_t *lo, size_t numbers);
uint32_t disruptor_write_at(disruptor_sender *sender, size_t senders, uint64_t sequence, const disruptor_event *event, size_t events);
uint32_t disruptor_write_bytes_at(disruptor_sender *sender, size_t senders, uint64_t sequence, const uint8_t *bytes, size_t there,
                                  size_t count);
uint32_t disruptor_publish_at(disruptor_sender *sender, size_t senders, uint64_t lo, uint64_t hi);
uint32_t disruptor_publish_slots_at(disruptor_sender *sender, size_t senders, uint64_t lo, uint64_t hi);
uint32_t disruptor_close_at(disruptor_sender *sender, size_t senders);
uint32_t disruptor_poll_at(disruptor_receiver *receiver, size_t receivers, disruptor_event *events, size_t places, size_t room,
                           disruptor_offer *offer, size_t offers);
uint32_t disruptor_poll_bytes_at(disruptor_receiver *receiver, size_t receivers, uint64_t room, disruptor_offer *offer,
                                 size_t offers);
uint32_t disruptor_poll_slots_at(disruptor_receiver *receiver, size_t receivers, uint64_t room, disruptor_offer *offer,
                                 size_t offers);
uint32_t disruptor_read_bytes_at(disruptor_receiver *receiver, size_t receivers, uint64_t sequence, uint8_t *into, size_t there,
                                 size_t count);
uint32_t disruptor_complete_at(disruptor_receiver *receiver, size_t receivers, uint64_t upto);
uint32_t disruptor_halt_at(disruptor_halter *halter, size_t halters);
uint32_t disruptor_cursor_at(disruptor_halter *halter, size_t halters, uint64_t *count, size_t numbers);
uint32_t disruptor_completed_at(disruptor_halter *halter, size_t halters, size_t handler, uint64_t *count, size_t numbers);
uint32_t disruptor_progress_at(void *handle, size_t handles, disruptor_counts *counts, size_t places);
size_t disruptor_name_at(uint32_t number, char *text, size_t room);

/* So many things, if they can lie there, or none. */
static inline size_t disruptor_there(const void *at, size_t alignment, size_t size, size_t count) {
    return at && (uintptr_t)at % alignment == 0 && count <= (size_t)PTRDIFF_MAX / size ? count : 0;
}

/* A pointer to something that stands, in place of one to nothing. */
static inline void *disruptor_or_nothing(const void *at, size_t there) {
    static uint64_t nothing;
    return there ? (void *)(uintptr_t)at : (void *)&nothing;
}
/* A pointer and how many things of its type lie there; eight bytes is what the library asks of the alignment of any but text. */
#define DISRUPTOR_THERE(at, count) disruptor_there(at, sizeof *(at) == 1 ? 1 : 8, sizeof *(at), count)
#define DISRUPTOR_ARRAY(type, at, count) (type *)disruptor_or_nothing(at, DISRUPTOR_THERE(at, count)), DISRUPTOR_THERE(at, count)
#define DISRUPTOR_ONE(type, at) DISRUPTOR_ARRAY(type, at, 1)

/* Opens a ring of `size` slots in which `limit` sequences may be claimed. Handler k follows those handlers whose bits are
 * in the mask upstreams[k], all of them before k, and its receiver comes to receivers[k]. There are as many receivers as
 * masks, 1 to 16. Refusals: BAD_POINTER, STILL_OPEN, BAD_COUNT, BAD_SIZE, NO_HANDLERS, TOO_MANY, BAD_ORDER, BAD_LIMIT, NO_MEMORY,
 * which is answered only where there is no other cause. Then no handle is opened. */
static inline uint32_t disruptor_open(uint64_t size, uint64_t limit, const uint64_t *upstreams, size_t handlers,
                                      disruptor_sender *sender, disruptor_receiver *receivers, size_t count,
                                      disruptor_halter *halter) {
    return disruptor_open_at(size, limit, DISRUPTOR_ARRAY(const uint64_t, upstreams, handlers), handlers,
                             DISRUPTOR_ONE(disruptor_sender, sender), DISRUPTOR_ARRAY(disruptor_receiver, receivers, count),
                             count, DISRUPTOR_ONE(disruptor_halter, halter));
}

/* Opens a ring of `count` senders, 1 to 16, whose ends come to senders[0] and on; else as disruptor_open, with as many receivers
 * as handlers. Any of the senders may claim at any time. The ring ends with a halt: a handler that took all that is claimed is
 * told DRAINED then. Refusals: those of disruptor_open, and BAD_PRODUCERS, before BAD_LIMIT. */
static inline uint32_t disruptor_open_several(uint64_t size, uint64_t limit, const uint64_t *upstreams, size_t handlers,
                                              disruptor_sender *senders, size_t count, disruptor_receiver *receivers,
                                              size_t rooms, disruptor_halter *halter) {
    return disruptor_open_several_at(size, limit, DISRUPTOR_ARRAY(const uint64_t, upstreams, handlers), handlers,
                                     DISRUPTOR_ARRAY(disruptor_sender, senders, count), count,
                                     DISRUPTOR_ARRAY(disruptor_receiver, receivers, rooms), rooms,
                                     DISRUPTOR_ONE(disruptor_halter, halter));
}

/* Opens a ring of bytes: one of one sender, as disruptor_open does, whose events have `bytes` bytes each, zeros at first. Its
 * sender writes by disruptor_write_bytes, and a handler takes by disruptor_poll_bytes and reads by disruptor_read_bytes; all
 * other calls are the same. An event is copied into the ring once, and out of it by each handler that reads it. Refusals: those
 * of disruptor_open. */
static inline uint32_t disruptor_open_bytes(uint64_t size, uint64_t limit, size_t bytes, const uint64_t *upstreams, size_t handlers,
                                            disruptor_sender *sender, disruptor_receiver *receivers, size_t count,
                                            disruptor_halter *halter) {
    return disruptor_open_bytes_at(size, limit, bytes, DISRUPTOR_ARRAY(const uint64_t, upstreams, handlers), handlers,
                                   DISRUPTOR_ONE(disruptor_sender, sender), DISRUPTOR_ARRAY(disruptor_receiver, receivers, count),
                                   count, DISRUPTOR_ONE(disruptor_halter, halter));
}

/* Opens a ring of slots, of one sender or of several. The ring hands out sequences alone: the events lie in an array of yours of
 * as many things as there are slots, of any type, that of a sequence at slots[DISRUPTOR_SLOT(sequence, size)]. Nothing is copied,
 * and a batch takes two calls on each side, however long it is. Who may touch a slot:
 *   - the sender that claimed its sequence, until it publishes it by disruptor_publish_slots;
 *   - each handler whose batch has it, from the poll by disruptor_poll_slots until it completes it. All may read it. A handler may
 *     also change it, if each other one comes before it or after it in the graph: those after it see all that it wrote;
 *   - before its first claim, and once all ends are freed, who opened the ring.
 * Nobody else touches it meanwhile: that is proved of cell k of the ring, for each k, where handlers only read. That one which changes
 * it has it alone is argued: no handler takes more than those before it completed, which is proved. So is that cell k is element k of
 * your array, since no contract speaks of memory that the library never sees; that you keep to this is up to you. In memory each
 * hand-over is ordered by sequentially consistent words of the library.
 *
 * All other calls are the same. Refusals: those of disruptor_open, and of disruptor_open_several. */
static inline uint32_t disruptor_open_slots(uint64_t size, uint64_t limit, const uint64_t *upstreams, size_t handlers,
                                            disruptor_sender *sender, disruptor_receiver *receivers, size_t count,
                                            disruptor_halter *halter) {
    return disruptor_open_bytes(size, limit, 0, upstreams, handlers, sender, receivers, count, halter);
}
static inline uint32_t disruptor_open_several_slots(uint64_t size, uint64_t limit, const uint64_t *upstreams, size_t handlers,
                                                    disruptor_sender *senders, size_t count, disruptor_receiver *receivers,
                                                    size_t rooms, disruptor_halter *halter) {
    return disruptor_open_several(size, limit, upstreams, handlers, senders, count, receivers, rooms, halter);
}
/* Where the event of a sequence lies in an array of `size` things. */
#define DISRUPTOR_SLOT(sequence, size) ((size_t)((sequence) & ((size) - 1)))

/* In masks for so many handlers, puts handler `upstream` before `handler`: the upstreams of a graph, pair by pair. The masks
 * begin as zeros. Refusals: BAD_POINTER, BAD_ORDER (it does not come before, there is no such handler, or it is above 63). */
static inline uint32_t disruptor_before(uint64_t *upstreams, size_t handlers, size_t upstream, size_t handler) {
    if (DISRUPTOR_THERE(upstreams, handlers) != handlers) return DISRUPTOR_BAD_POINTER;
    if (upstream >= handler || handler >= handlers || upstream >= 64) return DISRUPTOR_BAD_ORDER;
    upstreams[handler] |= UINT64_C(1) << upstream;
    return DISRUPTOR_OK;
}

/* Frees what a handle of any kind has. It is closed then, and may be opened again, though its bytes are not all zeros. A ring
 * is let go with its last end. A null pointer is let be.
 *
 * What an end leaves that is freed too early, others wait for in vain, and no answer names it: a handler that has not completed
 * every event leaves the senders without room once the slots are full, and those that follow it without events; a sender that has
 * not published a claim leaves the handlers of several senders GATING there, after a halt too; and one that did not close a ring of
 * one leaves them IDLE. So halt the ring first, tell its threads, and publish each claim. */
static inline void disruptor_free(void *handle) {
    size_t there = disruptor_there(handle, 8, sizeof(disruptor_sender), 1);
    disruptor_free_at(disruptor_or_nothing(handle, there), there);
}

/* Claims the next n sequences, from *lo on. Refusals: BAD_POINTER (of either), NOT_OPEN, WRONG_END, BAD_COUNT (none, or more
 * than the size), HALTED, EXHAUSTED, NO_ROOM, and of several senders CONTENDED; then *lo stays as it was. */
static inline uint32_t disruptor_claim(disruptor_sender *sender, uint64_t n, uint64_t *lo) {
    return disruptor_claim_at(DISRUPTOR_ONE(disruptor_sender, sender), n, DISRUPTOR_ONE(uint64_t, lo));
}

/* Writes the event of a sequence that is claimed and not published, in place of one that was written before. Refusals:
 * BAD_POINTER (of either), NOT_OPEN, WRONG_END, NOT_CLAIMED (by anybody), ALREADY_PUBLISHED, NOT_CLAIMED (by this sender). */
static inline uint32_t disruptor_write(disruptor_sender *sender, uint64_t sequence, const disruptor_event *event) {
    return disruptor_write_at(DISRUPTOR_ONE(disruptor_sender, sender), sequence, DISRUPTOR_ONE(const disruptor_event, event));
}

/* As disruptor_write, in a ring of bytes: copies `length` bytes, just as many as an event of the ring has, to where the event lies.
 * Refusals: BAD_POINTER (of either), NOT_OPEN, WRONG_END, BAD_LENGTH, NOT_CLAIMED, ALREADY_PUBLISHED. */
static inline uint32_t disruptor_write_bytes(disruptor_sender *sender, uint64_t sequence, const void *bytes, size_t length) {
    const uint8_t *from = (const uint8_t *)bytes;
    return disruptor_write_bytes_at(DISRUPTOR_ONE(disruptor_sender, sender), sequence,
                                    DISRUPTOR_ARRAY(const uint8_t, from, length), length);
}

/* Publishes the sequences from lo to hi, both among them. Refusals: BAD_POINTER, NOT_OPEN, WRONG_END, BAD_COUNT (lo is above
 * hi), NOT_CLAIMED (hi, by anybody); then of the first sequence at fault ALREADY_PUBLISHED, NOT_CLAIMED (by this sender) or
 * NOT_WRITTEN; and of one sender OUT_OF_ORDER. */
static inline uint32_t disruptor_publish(disruptor_sender *sender, uint64_t lo, uint64_t hi) {
    return disruptor_publish_at(DISRUPTOR_ONE(disruptor_sender, sender), lo, hi);
}

/* As disruptor_publish, in a ring of slots, where no call writes: publishes the sequences from lo to hi with what lies in their slots.
 * In a ring of bytes each event is then what was written last of its slot. Refusals: BAD_POINTER, NOT_OPEN, WRONG_END (also the sender of one
 * whose events are two words), BAD_COUNT, NOT_CLAIMED, ALREADY_PUBLISHED, OUT_OF_ORDER, as of disruptor_publish. A refused one may
 * leave sequences up to hi counted as written, which only disruptor_publish asks about. */
static inline uint32_t disruptor_publish_slots(disruptor_sender *sender, uint64_t lo, uint64_t hi) {
    return disruptor_publish_slots_at(DISRUPTOR_ONE(disruptor_sender, sender), lo, hi);
}

/* Closes the ring of one sender: no event comes from then on, and a receiver that took all of them is told DRAINED. It may be
 * repeated. Refusals: BAD_POINTER, NOT_OPEN, WRONG_END (also a sender of several), OPEN_CLAIM. */
static inline uint32_t disruptor_close(disruptor_sender *sender) {
    return disruptor_close_at(DISRUPTOR_ONE(disruptor_sender, sender));
}

/* Takes the next events to the front of `events`, `room` at most, and says in *offer what came. What lies past the batch
 * stays as it was. Refusals: BAD_POINTER (of any of the three), NOT_OPEN, WRONG_END, BAD_COUNT (no room); then *offer stays
 * as it was. */
static inline uint32_t disruptor_poll(disruptor_receiver *receiver, disruptor_event *events, size_t room, disruptor_offer *offer) {
    return disruptor_poll_at(DISRUPTOR_ONE(disruptor_receiver, receiver), DISRUPTOR_ARRAY(disruptor_event, events, room), room,
                             DISRUPTOR_ONE(disruptor_offer, offer));
}

/* Takes the next events of a ring of bytes, `room` at most, and says in *offer which they are. The handler may read each of
 * them until it completes it. Refusals: BAD_POINTER (of either), NOT_OPEN, WRONG_END, BAD_COUNT (no room); then *offer stays
 * as it was. */
static inline uint32_t disruptor_poll_bytes(disruptor_receiver *receiver, uint64_t room, disruptor_offer *offer) {
    return disruptor_poll_bytes_at(DISRUPTOR_ONE(disruptor_receiver, receiver), room, DISRUPTOR_ONE(disruptor_offer, offer));
}

/* As disruptor_poll_bytes, in a ring of slots, of one sender or of several: the handler may use the slots of the batch until it completes them.
 * Refusals: those of disruptor_poll_bytes. */
static inline uint32_t disruptor_poll_slots(disruptor_receiver *receiver, uint64_t room, disruptor_offer *offer) {
    return disruptor_poll_slots_at(DISRUPTOR_ONE(disruptor_receiver, receiver), room, DISRUPTOR_ONE(disruptor_offer, offer));
}

/* Copies the bytes of an event that the handler took and did not complete to `into`: `length`, just as many as an event of the
 * ring has. Refusals: BAD_POINTER (of either), NOT_OPEN, WRONG_END, NOT_IN_HAND, BAD_LENGTH; then `into` stays as it was. */
static inline uint32_t disruptor_read_bytes(disruptor_receiver *receiver, uint64_t sequence, void *into, size_t length) {
    uint8_t *to = (uint8_t *)into;
    return disruptor_read_bytes_at(DISRUPTOR_ONE(disruptor_receiver, receiver), sequence,
                                   DISRUPTOR_ARRAY(uint8_t, to, length), length);
}

/* Completes all events below the sequence `upto`: those who follow may take them, and after a final handler their slots may
 * be claimed again. Refusals: BAD_POINTER, NOT_OPEN, WRONG_END, BEHIND, NOT_TAKEN. */
static inline uint32_t disruptor_complete(disruptor_receiver *receiver, uint64_t upto) {
    return disruptor_complete_at(DISRUPTOR_ONE(disruptor_receiver, receiver), upto);
}

/* Halts the ring: nobody claims from then on. Handlers of one sender are told DRAINED only once it has closed, those of several
 * once they took all that is claimed. Refusals: BAD_POINTER, NOT_OPEN, WRONG_END. */
static inline uint32_t disruptor_halt(disruptor_halter *halter) {
    return disruptor_halt_at(DISRUPTOR_ONE(disruptor_halter, halter));
}

/* Says in *count how far the senders came: of one how many events it published, of several how many sequences they claimed. Any
 * thread may ask at any time, as of the calls of a halter one at a time. It is what the ring's word held at a moment of the call, and
 * never less than an earlier call said. Refusals: BAD_POINTER (of either), NOT_OPEN, WRONG_END (also the halter of a ring of one sender
 * whose events are two words: there the thread of each end asks disruptor_progress); then *count stays as it was. */
static inline uint32_t disruptor_cursor(disruptor_halter *halter, uint64_t *count) {
    return disruptor_cursor_at(DISRUPTOR_ONE(disruptor_halter, halter), DISRUPTOR_ONE(uint64_t, count));
}

/* Says in *count how many events a handler completed, as disruptor_cursor does. So the handler with the least count is behind, and the
 * ring has as many free slots as its size plus the least count of the final handlers, less the cursor. The numbers are of different
 * moments: ask the cursor first, and take the size where that is less. Of one sender, what it claimed beyond the cursor is not free
 * either. Refusals: those of disruptor_cursor, and NO_HANDLER. */
static inline uint32_t disruptor_completed_by(disruptor_halter *halter, size_t handler, uint64_t *count) {
    return disruptor_completed_at(DISRUPTOR_ONE(disruptor_halter, halter), handler, DISRUPTOR_ONE(uint64_t, count));
}

/* Says how far an end came, by its own calls: what the sender of one claimed and published, what a handler took and completed. Once
 * the threads are back that is all that they did; a thread may also ask its own handle at any time. A handler that was told
 * DRAINED took all that was published. Refusals: BAD_POINTER (of either), NOT_OPEN, WRONG_END (a halter, or one of several
 * senders); then *counts stays as it was. */
static inline uint32_t disruptor_progress(void *handle, disruptor_counts *counts) {
    size_t there = disruptor_there(handle, 8, sizeof(disruptor_sender), 1);
    return disruptor_progress_at(disruptor_or_nothing(handle, there), there, DISRUPTOR_ONE(disruptor_counts, counts));
}

/* The name of a number, as in "no-room", to the front of `text`, `room` bytes at most and without a zero at its end.
 * Answers how many bytes it has, or 0 where there is no such number. A null `text` is no room. */
static inline size_t disruptor_name(uint32_t number, char *text, size_t room) {
    return disruptor_name_at(number, DISRUPTOR_ARRAY(char, text, room));
}

/* What a number means. */
static inline const char *disruptor_text(uint32_t number) {
#define DISRUPTOR_TEXT(number, name, text, why) case number: return text ": " why;
    switch (number) {
        case DISRUPTOR_OK: return "ok";
        DISRUPTOR_REFUSALS(DISRUPTOR_TEXT)
        default: return "no such refusal";
    }
#undef DISRUPTOR_TEXT
}

/* What wakes threads that sleep until something changes, one for all ends of a ring. It begins as DISRUPTOR_NEW_BELL, and lies
 * where it is while threads use it. Who changed something rings it: after each publication, completion, close and halt. Where
 * nobody sleeps, that is one load. */
typedef struct disruptor_bell { DISRUPTOR_ALIGNED uint32_t word; } disruptor_bell;
#define DISRUPTOR_NEW_BELL {0}

/* How a thread waits that looks again and again for what others do: by pauses after the first four of several looks in a row
 * that find nothing, and by yielding its processor after each further one. The pauses tune themselves by how many events were there
 * after the last wait: a handler tells that by disruptor_found after each batch, and a sender by disruptor_found_room after each
 * claim. With a bell it listens after DISRUPTOR_MOST_LOOKS such looks, and sleeps after each further one until a ring comes, ten
 * milliseconds at most: an idle thread costs next to nothing, and what nobody rings for is seen so much later. That is on Linux;
 * elsewhere it goes on yielding.
 *
 * That no change is missed is argued, and not proved. A thread that is about to sleep makes the bell's word odd, and then looks
 * once more; who changed something looks at the word afterwards. All these steps are sequentially consistent. So either that
 * look sees the change, or the ring finds the word odd, makes it even and wakes; and nobody falls asleep over a word that changed. */
typedef struct disruptor_waiting {
    uint64_t room;
    /* How many pauses a wait takes, and how often it paused since a look found something. */
    uint32_t pauses, paused;
    disruptor_bell *bell;
    uint32_t looks, heard;
    /* How many events a sender found room for since it last waited. */
    uint64_t found;
} disruptor_waiting;
enum { DISRUPTOR_MOST_WAITS = 4, DISRUPTOR_MOST_LOOKS = 200 };

/* For a thread that has room for so many events at once, and sleeps where `bell` is not null. */
static inline disruptor_waiting disruptor_waits_by(uint64_t room, disruptor_bell *bell) {
    disruptor_waiting waiting = {room, 1, 0, bell, 0, 0, 0};
    return waiting;
}

/* For one that never sleeps. */
static inline disruptor_waiting disruptor_waits(uint64_t room) {
    return disruptor_waits_by(room, NULL);
}

static inline void disruptor_pause(void) {
#if defined(__x86_64__) || defined(__i386__)
    __builtin_ia32_pause();
#elif defined(__aarch64__)
    __asm__ __volatile__("yield");
#endif
}

/* Wakes those that sleep, if there are any. */
static inline void disruptor_ring(disruptor_bell *bell) {
    uint32_t seen = __atomic_load_n(&bell->word, __ATOMIC_SEQ_CST), even = seen + 1;
    if (seen % 2 == 0) return;
    /* Where another one rang meanwhile, that one wakes them. */
    if (!__atomic_compare_exchange_n(&bell->word, &seen, even, false, __ATOMIC_SEQ_CST, __ATOMIC_SEQ_CST)) return;
#ifdef __linux__
    syscall(SYS_futex, &bell->word, DISRUPTOR_FUTEX_WAKE, INT32_MAX, NULL, NULL, 0);
#endif
}

/* Makes the word odd until the next ring, and answers what it is: even if others changed it meanwhile. */
static inline uint32_t disruptor_listen(disruptor_bell *bell) {
    uint32_t seen = __atomic_load_n(&bell->word, __ATOMIC_SEQ_CST), odd = seen + 1;
    if (seen % 2 == 1) return seen;
    return __atomic_compare_exchange_n(&bell->word, &seen, odd, false, __ATOMIC_SEQ_CST, __ATOMIC_SEQ_CST) ? odd : seen;
}

/* Sleeps until a ring after the listening that answered `heard`, ten milliseconds at most. */
static inline void disruptor_sleep(disruptor_bell *bell, uint32_t heard) {
    if (heard % 2 == 0) return;
#ifdef __linux__
    struct timespec most = {0, 10000000};
    syscall(SYS_futex, &bell->word, DISRUPTOR_FUTEX_WAIT, heard, &most, NULL, 0);
#else
    sched_yield();
#endif
}

/* Begins anew, after a poll that found so many events. */
static inline void disruptor_found(disruptor_waiting *waiting, uint64_t count) {
    if (waiting->paused) {
        uint32_t pauses = waiting->pauses;
        if (count > waiting->room / 3 || count < pauses / 64) {
            if (pauses > 1) waiting->pauses = pauses / 2;
        } else if (count < waiting->room / 6 && count >= pauses / 32) {
            if (pauses < 1024) waiting->pauses = 2 * pauses;
        }
    }
    waiting->paused = 0;
    waiting->looks = waiting->heard = 0;
}

/* As disruptor_found, after a claim of so many events: a sender claims again at once, so what counts is how many found room until it waits
 * again, which disruptor_wait tells disruptor_found. */
static inline void disruptor_found_room(disruptor_waiting *waiting, uint64_t count) {
    waiting->found += count;
}

/* Waits after a look that found nothing. */
static inline void disruptor_wait(disruptor_waiting *waiting) {
    if (waiting->found) {
        disruptor_found(waiting, waiting->found);
        waiting->found = 0;
    }
    if (waiting->bell) {
        if (waiting->looks == DISRUPTOR_MOST_LOOKS) {
            disruptor_sleep(waiting->bell, waiting->heard);
            /* The next look comes after this, so that a change which it does not see rings later. */
            waiting->heard = disruptor_listen(waiting->bell);
            return;
        }
        waiting->looks++;
    }
    if (waiting->paused == DISRUPTOR_MOST_WAITS) {
        sched_yield();
        return;
    }
    for (uint32_t k = 0; k < waiting->pauses; k++) disruptor_pause();
    waiting->paused++;
}

/* Keeps the calling thread on one processor, counted from 0, and answers whether it does: on Linux, where the program may use it. */
static inline bool disruptor_pin(unsigned processor) {
#ifdef __linux__
    unsigned long mask[16] = {0};
    const unsigned bits = 8 * sizeof *mask;
    if (processor / bits >= sizeof mask / sizeof *mask) return false;
    mask[processor / bits] = 1ul << processor % bits;
    return syscall(SYS_sched_setaffinity, 0, sizeof mask, mask) == 0;
#else
    (void)processor;
    return false;
#endif
}

/* Nanoseconds of a clock that nobody sets, on Linux. */
static inline uint64_t disruptor_now(void) {
    struct timespec now = {0, 0};
#ifdef __linux__
    syscall(SYS_clock_gettime, DISRUPTOR_MONOTONIC, &now);
#else
    timespec_get(&now, TIME_UTC);
#endif
    return (uint64_t)now.tv_sec * 1000000000 + (uint64_t)now.tv_nsec;
}

/* So many nanoseconds are for ever. */
#define DISRUPTOR_FOREVER UINT64_MAX

/* Waits, if so many nanoseconds since *begun are not over, and answers whether they are. *begun is 0 at first. */
static inline bool disruptor_is_over(disruptor_waiting *waiting, uint64_t nanoseconds, uint64_t *begun) {
    if (nanoseconds != DISRUPTOR_FOREVER) {
        const uint64_t now = disruptor_now();
        if (!*begun) *begun = now;
        if (now - *begun >= nanoseconds) return true;
    }
    disruptor_wait(waiting);
    return false;
}

/* disruptor_claim, made again while it is refused with NO_ROOM or CONTENDED, until so many nanoseconds are over, and ten
 * milliseconds more at most where it sleeps. */
static inline uint32_t disruptor_claim_within(disruptor_sender *sender, uint64_t n, uint64_t *lo, disruptor_waiting *waiting,
                                              uint64_t nanoseconds) {
    uint64_t begun = 0;
    for (;;) {
        const uint32_t refused = disruptor_claim(sender, n, lo);
        if (!refused) disruptor_found_room(waiting, n);
        if (refused != DISRUPTOR_NO_ROOM && refused != DISRUPTOR_CONTENDED) return refused;
        if (disruptor_is_over(waiting, nanoseconds, &begun)) return refused;
    }
}

/* Whether a poll has its answer: it is refused, or was told other than GATING or IDLE, or the time is over. Else it waits. */
static inline bool disruptor_is_answered(uint32_t refused, const disruptor_offer *offer, disruptor_waiting *waiting,
                                         uint64_t nanoseconds, uint64_t *begun) {
    if (refused) return true;
    if (offer->kind == DISRUPTOR_BATCH) disruptor_found(waiting, offer->count);
    return offer->kind == DISRUPTOR_BATCH || offer->kind == DISRUPTOR_DRAINED || disruptor_is_over(waiting, nanoseconds, begun);
}

/* disruptor_poll_slots, made again while it is told GATING or IDLE, as long as that. */
static inline uint32_t disruptor_poll_slots_within(disruptor_receiver *receiver, uint64_t room, disruptor_offer *offer,
                                                   disruptor_waiting *waiting, uint64_t nanoseconds) {
    uint64_t begun = 0;
    for (;;) {
        const uint32_t refused = disruptor_poll_slots(receiver, room, offer);
        if (disruptor_is_answered(refused, offer, waiting, nanoseconds, &begun)) return refused;
    }
}

/* The same of disruptor_poll, for events of two words, and of disruptor_poll_bytes. */
static inline uint32_t disruptor_poll_within(disruptor_receiver *receiver, disruptor_event *events, size_t room, disruptor_offer *offer,
                                             disruptor_waiting *waiting, uint64_t nanoseconds) {
    uint64_t begun = 0;
    for (;;) {
        const uint32_t refused = disruptor_poll(receiver, events, room, offer);
        if (disruptor_is_answered(refused, offer, waiting, nanoseconds, &begun)) return refused;
    }
}
static inline uint32_t disruptor_poll_bytes_within(disruptor_receiver *receiver, uint64_t room, disruptor_offer *offer,
                                                   disruptor_waiting *waiting, uint64_t nanoseconds) {
    uint64_t begun = 0;
    for (;;) {
        const uint32_t refused = disruptor_poll_bytes(receiver, room, offer);
        if (disruptor_is_answered(refused, offer, waiting, nanoseconds, &begun)) return refused;
    }
}

#ifdef __cplusplus
}
#endif
#endif
