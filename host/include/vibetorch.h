/* Vibetorch for a host in C: the write-back cache of a chart box. Link crates/cabi/out/libcabi.a, which `rt lib` in crates/cabi
 * makes; it is for x86-64 Linux and needs nothing beside it.
 *
 * The library keeps nothing. The host owns the ring (battery memory), the state, and the buffers that it lends; each call
 * gets the ring and the state that the last one left. Every call answers every value of every number, of the ring's bytes
 * and of the state: what is wrong is refused by a number of the table below, and a refused call changes no byte.
 *
 * What is asked of the host, since it can't be tested here:
 *  - a pointer leads to as many bytes as the length beside it says, and isn't null, not even with length 0;
 *  - the ring, the bytes of a write and a lent buffer don't overlap each other or the state;
 *  - no two calls run at once on one ring.
 *
 * And for nothing to be lost: only flush sheets change the files on shore; a flush is reported good only if its whole sheet
 * landed; once it is reported, or the box restarted, no byte of it lands any more; nobody else changes the ring's bytes, and
 * a ring in use is never made anew.
 */
#ifndef VIBETORCH_H
#define VIBETORCH_H

#include <stdbool.h>
#include <stddef.h>
#include <stdint.h>

#ifdef __cplusplus
extern "C" {
#endif

/* ---- sizes, each named once */

#define VT_SLOT 256                                       /* bytes of a slot */
#define VT_SLOTS_LEAST 18                                 /* slots of the smallest ring */
#define VT_SLOTS_MOST 255                                 /* slots of the largest ring */
#define VT_RING_BYTES(slots) (16 + VT_SLOT * (slots))     /* bytes of a ring: no other length will do */
#define VT_WRITES 254                                     /* writes that a ring holds at most */
#define VT_PINS 16                                        /* pins that live at once */
#define VT_WRITE_MOST 4096                                /* bytes of the largest write */
#define VT_FILL_MOST 65536                                /* bytes of the largest fill */
#define VT_FILE_END 16777216                              /* no file goes on past here */
#define VT_BATCH 32                                       /* writes of a flush at most */
#define VT_SHEET_MOST (8 + VT_BATCH * (8 + VT_WRITE_MOST)) /* a buffer of so many bytes holds every sheet */

/* ---- the state; all zeros before the first call, which is vt_make or vt_reopen */

typedef struct vt_listed {
    uint64_t number;
    uint8_t phase; /* 0 Unflushed, 1 In flight, 2 Flushed */
} vt_listed;

typedef struct vt_pin_record {
    uint64_t number; /* 0: a free record */
    uint64_t mark;
    uint32_t node; /* 0: a pin for all */
} vt_pin_record;

typedef struct vt_state {
    uint64_t next;  /* the next number */
    uint64_t flush; /* the flush under way, 0 for none */
    size_t count;   /* writes listed */
    vt_listed writes[VT_WRITES];
    vt_pin_record pins[VT_PINS];
} vt_state;

/* ---- answers */

/* Why a call was refused. */
enum vt_refusal {
    VT_OK = 0,
    VT_NODE_ZERO = 1,        /* the node is 0 */
    VT_BAD_LENGTH = 2,       /* a write of no byte, or of more than VT_WRITE_MOST */
    VT_PAST_FILE_END = 3,    /* offset and length go past VT_FILE_END */
    VT_NO_ROOM = 4,          /* the write needs more slots than are free */
    VT_NO_NUMBER = 5,        /* the numbers are used up */
    VT_FLUSH_UNDER_WAY = 6,  /* a flush is under way */
    VT_NOT_THE_FLUSH = 7,    /* the number isn't that of the flush under way */
    VT_UNREADABLE = 8,       /* the bytes aren't a ring */
    VT_NO_SUCH_PIN = 9,      /* there is no such live pin, or not for that node */
    VT_TOO_MANY_PINS = 10,   /* VT_PINS pins live already */
    VT_BAD_BUFFER = 11,      /* a lent buffer is too short, too long, or of no valid length; or more fetched than it holds */
    VT_STATE_UNFIT = 12      /* the state doesn't fit the ring */
};

typedef struct vt_answer {
    uint32_t refusal; /* an enum vt_refusal */
    uint64_t value;   /* what the call gives, 0 where it is refused */
    uint64_t length;  /* of a flush sheet, 0 otherwise */
} vt_answer;

/* ---- the library's own functions: the state goes in and comes out by value */

typedef struct vt_changed {
    vt_state state;
    vt_answer answer;
} vt_changed;

vt_changed vibetorch_make(uint8_t *ring, size_t ring_length, vt_state state);
vt_changed vibetorch_reopen(const uint8_t *ring, size_t ring_length, vt_state state);
vt_changed vibetorch_write(uint8_t *ring, size_t ring_length, vt_state state, uint32_t node, uint32_t handle,
                           uint32_t offset, const uint8_t *bytes, size_t length);
vt_changed vibetorch_pin(const uint8_t *ring, size_t ring_length, vt_state state, uint32_t node);
vt_changed vibetorch_unpin(uint8_t *ring, size_t ring_length, vt_state state, uint64_t number);
vt_answer vibetorch_fill(const uint8_t *ring, size_t ring_length, vt_state state, uint64_t pin, uint32_t node,
                         uint32_t offset, size_t fetched, uint8_t *buffer, size_t length);
vt_answer vibetorch_cached_end(const uint8_t *ring, size_t ring_length, vt_state state, uint32_t node);
vt_changed vibetorch_start(const uint8_t *ring, size_t ring_length, vt_state state, uint32_t node, uint8_t *buffer,
                           size_t length);
vt_changed vibetorch_report(uint8_t *ring, size_t ring_length, vt_state state, uint64_t number, bool good);
vt_changed vibetorch_take_ticket(const uint8_t *ring, size_t ring_length, vt_state state);
vt_answer vibetorch_ask_ticket(const uint8_t *ring, size_t ring_length, vt_state state, uint64_t ticket, uint32_t node);
vt_answer vibetorch_whose_turn(const uint8_t *ring, size_t ring_length, vt_state state);

/* ---- the calls, with the state changed in place */

/* Makes an empty ring. Its length must be VT_RING_BYTES of 18 to 255 slots. */
static inline vt_answer vt_make(uint8_t *ring, size_t ring_length, vt_state *state) {
    vt_changed out = vibetorch_make(ring, ring_length, *state);
    *state = out.state;
    return out.answer;
}

/* Reopens a ring after a restart: every write it holds is Unflushed again, no pin lives and no flush is under way. Old pin,
 * flush and ticket numbers are to be forgotten. Gives the next number. */
static inline vt_answer vt_reopen(const uint8_t *ring, size_t ring_length, vt_state *state) {
    vt_changed out = vibetorch_reopen(ring, ring_length, *state);
    *state = out.state;
    return out.answer;
}

/* Keeps a write. Once this answers VT_OK the tablet may be told "done". Gives the write's number. */
static inline vt_answer vt_write(uint8_t *ring, size_t ring_length, vt_state *state, uint32_t node, uint32_t handle,
                                 uint32_t offset, const uint8_t *bytes, size_t length) {
    vt_changed out = vibetorch_write(ring, ring_length, *state, node, handle, offset, bytes, length);
    *state = out.state;
    return out.answer;
}

/* Pins a node before its file is fetched for a read; node 0 pins all. Gives the pin's number. */
static inline vt_answer vt_pin(const uint8_t *ring, size_t ring_length, vt_state *state, uint32_t node) {
    vt_changed out = vibetorch_pin(ring, ring_length, *state, node);
    *state = out.state;
    return out.answer;
}

/* Ends a pin. */
static inline vt_answer vt_unpin(uint8_t *ring, size_t ring_length, vt_state *state, uint64_t number) {
    vt_changed out = vibetorch_unpin(ring, ring_length, *state, number);
    *state = out.state;
    return out.answer;
}

/* Fills a read: the buffer's first `fetched` bytes came from shore, at one moment after the pin; `fetched` is the lesser of
 * `length` and what the shore's file has from `offset` on. Gives the count of bytes that may be shown. */
static inline vt_answer vt_fill(const uint8_t *ring, size_t ring_length, const vt_state *state, uint64_t pin,
                                uint32_t node, uint32_t offset, size_t fetched, uint8_t *buffer, size_t length) {
    return vibetorch_fill(ring, ring_length, *state, pin, node, offset, fetched, buffer, length);
}

/* Gives where the node's cached bytes end, 0 if there are none. */
static inline vt_answer vt_cached_end(const uint8_t *ring, size_t ring_length, const vt_state *state, uint32_t node) {
    return vibetorch_cached_end(ring, ring_length, *state, node);
}

/* Starts a flush of a node. Gives the flush's number and the length of the sheet in the buffer's front, to be sent to shore;
 * value 0 means that there is nothing to flush. */
static inline vt_answer vt_start(const uint8_t *ring, size_t ring_length, vt_state *state, uint32_t node,
                                 uint8_t *buffer, size_t length) {
    vt_changed out = vibetorch_start(ring, ring_length, *state, node, buffer, length);
    *state = out.state;
    return out.answer;
}

/* Reports a flush: good only if the whole sheet landed. */
static inline vt_answer vt_report(uint8_t *ring, size_t ring_length, vt_state *state, uint64_t number, bool good) {
    vt_changed out = vibetorch_report(ring, ring_length, *state, number, good);
    *state = out.state;
    return out.answer;
}

/* Takes a ticket: a number, for asking later whether all that was accepted so far is on shore. */
static inline vt_answer vt_take_ticket(const uint8_t *ring, size_t ring_length, vt_state *state) {
    vt_changed out = vibetorch_take_ticket(ring, ring_length, *state);
    *state = out.state;
    return out.answer;
}

/* Asks a ticket, for a node or for all (0). Gives 1 for done, 0 for not yet. */
static inline vt_answer vt_ask_ticket(const uint8_t *ring, size_t ring_length, const vt_state *state, uint64_t ticket,
                                      uint32_t node) {
    return vibetorch_ask_ticket(ring, ring_length, *state, ticket, node);
}

/* Gives the node that should be flushed next, 0 if nothing waits. */
static inline vt_answer vt_whose_turn(const uint8_t *ring, size_t ring_length, const vt_state *state) {
    return vibetorch_whose_turn(ring, ring_length, *state);
}

#ifdef __cplusplus
}
#endif

#endif
