/* A queue of 64-bit words for many threads, first in first out, that can be closed.
 *
 * What is proved, and where that ends. The library, libqueue_c.a, is proved in crates/queue_c: each function below, whose contract is in its
 * exports.rt, is safe, ends, and does what the queue's own contract says of that call by any number of threads. The proof ends at the library's border.
 * Nothing checks this header against the library, or that a C program keeps the rules below.
 *
 * A thread uses the queue through a party of its own. C holds a party in a handle, a struct of one pointer.
 * Not checked. A program that breaks one of these rules has undefined behavior:
 *   - a handle begins as QUEUE_C_NONE. C never copies it, and never reads or writes what is in it;
 *   - a handle is in one call at a time, and at one place of that call. Two threads have two handles;
 *   - a handle may go to another thread, where a lock, a thread's start or join, or a SeqCst atomic orders that;
 *   - each pointer that a call gets is valid, not NULL, and is no other argument of that call;
 *   - no call is made in a signal handler, or in the forked child of a process with threads;
 *   - malloc, realloc, posix_memalign and free are one allocator's, and malloc aligns to 8 at least.
 * Checked, each by an answer of its own: a handle without a party, so also one that was dropped twice; one that has a party where none may be; a capacity
 * of 0; a queue that other parties share; a party that was dropped before the end; a call while another one is pending.
 *
 * It runs on each x86-64, or on each aarch64, as it was built. It asks nothing of the system but malloc, realloc, posix_memalign, free, memcpy and memset; in
 * heap.c they are called, whose three functions a program may define itself.
 *
 * No call waits. One that meets another thread's call half done, or that others overtake again and again, answers QUEUE_C_PENDING: its handle keeps it, and
 * queue_c_resume takes it up again. Until it has its reply, each other call of that handle but queue_c_capacity and queue_c_drop answers QUEUE_C_BUSY.
 */
#ifndef QUEUE_C_H
#define QUEUE_C_H

#include <sched.h>
#include <stddef.h>
#include <stdint.h>

/* The version of the repository that these declarations are from. An object that has this header links with the library of that version alone: another one
 * lacks the name. */
#define QUEUE_C_VERSION "2.0.0"
#define QUEUE_C_VERSION_NAME queue_c_version_2_0_0

#ifdef __cplusplus
extern "C" {
#endif

extern const char QUEUE_C_VERSION_NAME;
#if defined(__has_attribute)
#if __has_attribute(retain)
__attribute__((retain))
#endif
#endif
__attribute__((used)) static const char *const queue_c_version_wanted = &QUEUE_C_VERSION_NAME;

typedef struct queue_c_party {
    void *at;
} queue_c_party;

/* A handle without a party. */
#define QUEUE_C_NONE { 0 }

/* What each call may answer. QUEUE_C_NO_PARTY is an answer of every call of a handle that has none. */
enum {
    QUEUE_C_DONE = 0,      /* done; for a question: no */
    QUEUE_C_YES = 1,       /* for a question: yes; for a forced push: an item was displaced */
    QUEUE_C_FULL = 2,
    QUEUE_C_EMPTY = 3,
    QUEUE_C_CLOSED = 4,
    QUEUE_C_NO_MEMORY = 5, /* nothing was changed */
    QUEUE_C_NO_PARTY = 6,  /* the handle has no party */
    QUEUE_C_TAKEN = 7,     /* the handle that was to get a party has one */
    QUEUE_C_NO_ROOM = 8,   /* a capacity of 0 */
    QUEUE_C_TOO_MANY = 9,  /* there are as many parties as there may be */
    QUEUE_C_SHARED = 10,   /* there are other parties */
    QUEUE_C_LOST = 11,     /* some party was dropped, and the queue is gone */
    QUEUE_C_PENDING = 12,  /* the handle keeps the call: queue_c_resume */
    QUEUE_C_BUSY = 13,     /* a call of this handle is pending, and this one was not made */
    QUEUE_C_IDLE = 14      /* no call of this handle is pending */
};

/* A new queue and its first party, in `out`, which has none: DONE, TAKEN, NO_MEMORY; a capacity of 0 is NO_ROOM, also where `out` has a party. */
uint32_t queue_c_bounded(queue_c_party *out, size_t cap);
uint32_t queue_c_unbounded(queue_c_party *out);

/* Another party of the same queue, in `out`, which has none: DONE, TAKEN, BUSY, TOO_MANY, NO_MEMORY. But for DONE nothing is changed. Where `out` has a party it
 * is TAKEN, also if `party` has none or a call is pending. */
uint32_t queue_c_split(queue_c_party *party, queue_c_party *out);

/* Drops the party, and its pending call: DONE. The handle then has none. The queue and its items go with the last party. A pending call that is dropped has
 * no reply and may have had its effect; other parties may wait for it for ever. */
uint32_t queue_c_drop(queue_c_party *party);

/* Ends the queue by its only party, and writes how many items were left: DONE. With other parties: SHARED, and nothing is changed. Where some party was
 * dropped before: LOST, and the queue is gone as after queue_c_drop. BUSY. So it is for a queue that was never split; else drop each party. */
uint32_t queue_c_finish(queue_c_party *party, uint64_t *left);

/* Appends the value: DONE, FULL, CLOSED, NO_MEMORY, PENDING, BUSY. */
uint32_t queue_c_push(queue_c_party *party, uint64_t value);

/* Appends the value, and where the queue is full takes the front off and writes it to `old`: DONE; YES and the front; CLOSED, NO_MEMORY, PENDING, BUSY. */
uint32_t queue_c_force_push(queue_c_party *party, uint64_t value, uint64_t *old);

/* Takes the front off and writes it to `value`: DONE; EMPTY, CLOSED (empty and closed), PENDING, BUSY. */
uint32_t queue_c_pop(queue_c_party *party, uint64_t *value);

/* Writes the number of items at a moment of the call to `len`: DONE, PENDING, BUSY. */
uint32_t queue_c_len(queue_c_party *party, uint64_t *len);

/* Takes the pending call up again. It answers what that call may answer, and writes to `value` what that call writes. IDLE where none is pending. */
uint32_t queue_c_resume(queue_c_party *party, uint64_t *value);

/* Closes the queue; its items stay: YES where this call closed it, DONE where it was closed, BUSY. */
uint32_t queue_c_close(queue_c_party *party);

/* Questions about a moment of the call: YES, DONE for no, BUSY. */
uint32_t queue_c_is_closed(queue_c_party *party);
uint32_t queue_c_is_empty(queue_c_party *party);
uint32_t queue_c_is_full(queue_c_party *party);

/* YES and the capacity in `cap`, or DONE where there is none. */
uint32_t queue_c_capacity(queue_c_party *party, uint64_t *cap);

/* Of C alone, and not proved: takes a call that gave `answer` up until it has its reply, and lets other threads run in between. Use it as
 * queue_c_wait(&party, queue_c_pop(&party, &value), &value). It goes on until the other call does, whose thread may be stopped. */
static inline uint32_t queue_c_wait(queue_c_party *party, uint32_t answer, uint64_t *value) {
    while (answer == QUEUE_C_PENDING) {
        sched_yield();
        answer = queue_c_resume(party, value);
    }
    return answer;
}

#ifdef __cplusplus
}
#endif

#endif
