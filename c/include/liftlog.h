/* liftlog: a proved write-ahead log for a lift's translator box, for C.
 *
 * The log lives in one image of bytes that the caller lends: 84 bytes of metadata, then S slots of E bytes. The state is a value:
 * each call takes it and hands it back changed, in an answer beside a number and the store that the call has made. 0 is done; any
 * other number is a refusal, and then neither image nor state has changed. Every call takes every input: any state, any image, any
 * length. A null pointer with length 0 is an empty part.
 *
 * The life of a log: liftlog_create lays a fresh image, once. From then on liftlog_open, at any time, from the image alone;
 * liftlog_wipe; liftlog_mark; and the log runs. After a power cut the state is lost, the image remains, and open finds every record
 * that was done and not removed.
 *
 * The calls are proved for every input. What the caller owes:
 *
 * - Each call gets the state that the call before handed back, and after a power cut only open's. A state is a value, and two calls
 *   on one old copy of it would both answer 0.
 * - Nobody else writes the image. A pointer and its length name memory that the call may use, and image and payload do not overlap.
 * - The medium's order: of a store that is cut, metadata arrive whole or not at all, a record front to back, a wipe last byte first.
 *   Plain memory promises no such order, for a compiler may lay a store's bytes down in any. So where the image must outlive the
 *   program, let the calls work on a copy in memory, and carry each answer's store to the medium in that order, before anything is
 *   passed on: liftlog_carry of liftlog_medium.h does it.
 *
 * Link with -lliftlog. */
#ifndef LIFTLOG_H
#define LIFTLOG_H

#include <stddef.h>
#include <stdint.h>

#ifdef __cplusplus
extern "C" {
#endif

/* ---- Sizes */

#define LIFTLOG_METADATA 84u                    /* the metadata's bytes, at the front of an image */
#define LIFTLOG_E_LEAST 64u                     /* E, the bytes of a slot, is 64 to 65,536 */
#define LIFTLOG_E_MOST 65536u
#define LIFTLOG_S_LEAST 2u                      /* S, the number of slots, is 2 to 64 */
#define LIFTLOG_S_MOST 64u
#define LIFTLOG_PAYLOAD_MOST 1024u              /* M, the longest payload, is the smaller of this and E - 14 */
#define LIFTLOG_RECORD 9u                       /* a payload of p bytes takes p + 9 */
#define LIFTLOG_LSN_FIRST 1u                    /* the first LSN */
#define LIFTLOG_LSN_SPENT UINT32_C(4294967295)  /* the one LSN that no record has */

/* The length of an image: exactly 84 + S x E. */
#define LIFTLOG_IMAGE(e, s) ((size_t)LIFTLOG_METADATA + (size_t)(s) * (size_t)(e))

/* ---- Modes. H: with a pending head truncation. */

enum {
    LIFTLOG_MODE_CLOSED = 0,
    LIFTLOG_MODE_OPENED = 1,
    LIFTLOG_MODE_WIPED = 2,
    LIFTLOG_MODE_RUN = 3,
    LIFTLOG_MODE_ZEROED = 4,
    LIFTLOG_MODE_WRITTEN = 5,
    LIFTLOG_MODE_TAIL = 6,
    LIFTLOG_MODE_RUN_H = 7,
    LIFTLOG_MODE_ZEROED_H = 8,
    LIFTLOG_MODE_WRITTEN_H = 9
};

/* ---- Refusal numbers, each given exactly when */

enum {
    LIFTLOG_DONE = 0,            /* done */
    LIFTLOG_SIZE = 1,            /* E or S out of range, or image length wrong */
    LIFTLOG_MALFORMED = 2,       /* state malformed */
    LIFTLOG_NOT_ADMITTED = 3,    /* step not admitted in this mode */
    LIFTLOG_TOO_LONG = 4,        /* payload above M */
    LIFTLOG_NO_ROOM = 5,         /* append: write place + p + 9 above E */
    LIFTLOG_WOULD_FIT = 6,       /* roll begin: the record would fit */
    LIFTLOG_NO_SLOT = 7,         /* roll begin: no slot is free */
    LIFTLOG_LSNS_SPENT = 8,      /* append, roll begin: tail is 4,294,967,295 */
    LIFTLOG_VERSIONS_SPENT = 9,  /* tail start: version is 65,535 */
    LIFTLOG_NOT_LIVE = 10,       /* head start: not head < h <= tail; tail start: not head <= t < tail; read: not head <= LSN < tail */
    LIFTLOG_OTHER_LENGTH = 11,   /* roll write: not the announced length */
    LIFTLOG_BAD_METADATA = 12,   /* open: a metadata rule is broken */
    LIFTLOG_BAD_EXTENTS = 13,    /* open: an extent's first byte is not 1 or its start is 0, extents do not join as open asks, head
                                    is below the first start or above tail, or head reaches a second extent's start */
    LIFTLOG_BAD_TAIL = 14,       /* open: tail below last tail LSN, or clean mark with tail unequal to it */
    LIFTLOG_NOT_FOUND = 15,      /* tail start, read: the walk stops before that LSN is reached; for read, also when the record
                                    at that LSN is not complete */
    LIFTLOG_SLOT_TWICE = 16      /* open: a slot is listed twice */
};

/* ---- Kinds of store, by how a medium takes their bytes */

enum {
    LIFTLOG_STORE_NONE = 0,
    LIFTLOG_STORE_METADATA = 1,  /* whole or not at all */
    LIFTLOG_STORE_RECORD = 2,    /* front to back */
    LIFTLOG_STORE_WIPE = 3       /* zeros, last byte first */
};

/* ---- Values */

/* The state of a log. The listed extents are the first n entries of slots and starts; the last is the write extent, and place
 * is where the next record goes in it. Live records have LSNs from head up to, not including, tail. A mode that is none of the
 * ten is a malformed state. */
typedef struct liftlog_state {
    uint64_t pending;     /* the slots that a pending head truncation has dropped, a bit each */
    uint32_t e;           /* E */
    uint32_t head;
    uint32_t tail;
    uint32_t last;        /* the last tail LSN */
    uint32_t place;       /* the write place */
    uint32_t roll_len;    /* the announced length in a roll, otherwise 0 */
    uint32_t starts[64];
    uint8_t slots[64];
    uint16_t version;     /* the tail version */
    uint8_t mode;
    uint8_t s;            /* S */
    uint8_t n;            /* how many extents are listed */
    uint8_t roll_slot;    /* the slot that a roll holds, otherwise 0 */
} liftlog_state;

/* What a call has stored: its kind, its place in the image and its count of bytes, which stand in the image there. None, with place
 * and count 0, when the call is refused or stores nothing. Create lays the whole image before the log's life begins: its answer
 * names none, and the caller carries all of the image. */
typedef struct liftlog_store {
    size_t place;
    size_t count;
    uint8_t kind;
} liftlog_store;

/* What a call answers: its number, its store and the next state. */
typedef struct liftlog_answer {
    uint8_t number;
    liftlog_store store;
    liftlog_state state;
} liftlog_answer;

/* What a read answers: where the payload lies in the image, and its length; both 0 when refused. */
typedef struct liftlog_reading {
    uint8_t number;
    size_t place;
    size_t length;
} liftlog_reading;

/* What a state alone reports: free slots and live records; both 0 when refused. */
typedef struct liftlog_report {
    uint8_t number;
    uint32_t free;
    uint32_t live;
} liftlog_report;

/* ---- Calls that make a state */

/* create (E, S): metadata with head 1, last tail 1, version 1, clean 1, slot 0 listed; slot 0 starts at 1; all else zero. Gives
 * Closed; refused (1), a Closed state of zeros. It is done before the log's life begins and is not cut. */
liftlog_answer liftlog_create(uint8_t *image, size_t image_length, uint32_t e, uint8_t s);

/* open (image only, any time): walks each listed extent by complete records; where the last one's walk stops is the tail and the
 * write place. Gives Opened; refused (1, 12, 13, 16, 14), a Closed state of zeros. No store. */
liftlog_answer liftlog_open(const uint8_t *image, size_t image_length);

/* ---- Steps. Each gives 1, 2, 3 first, in that order, then what is named here. */

/* wipe, Opened to Wiped: write extent from write place to its end. */
liftlog_answer liftlog_wipe(liftlog_state state, uint8_t *image, size_t image_length);

/* mark, Wiped to Run: metadata with clean 0. Deciding. */
liftlog_answer liftlog_mark(liftlog_state state, uint8_t *image, size_t image_length);

/* append, Run, RunH, mode kept: record at the write place, with the tail as LSN and the current version. Deciding. 4, 8, 5. */
liftlog_answer liftlog_append(liftlog_state state, uint8_t *image, size_t image_length, const uint8_t *payload, size_t payload_length);

/* roll begin (length p), Run to Zeroed: takes the lowest-numbered free slot and wipes it whole. 4, 8, 6, 7. */
liftlog_answer liftlog_roll_begin(liftlog_state state, uint8_t *image, size_t image_length, size_t p);

/* roll write (payload of that length), Zeroed to Written: one store, extent header with start = tail, then the record. 11. */
liftlog_answer liftlog_roll_write(liftlog_state state, uint8_t *image, size_t image_length, const uint8_t *payload, size_t payload_length);

/* roll list, Written to Run: metadata listing those extents whose end is above head, then the new one. An extent left out is free
 * at once. Tail grows by one. Deciding. The roll steps keep H. */
liftlog_answer liftlog_roll_list(liftlog_state state, uint8_t *image, size_t image_length);

/* head start (h), Run to RunH: head becomes h; extents with end at or below h leave the list, the write extent never. Their
 * slots are pending. Deciding. 10. */
liftlog_answer liftlog_head_start(liftlog_state state, uint8_t *image, size_t image_length, uint32_t h);

/* head finish, RunH, ZeroedH, WrittenH, to the mode without H: pending slots become free. No store. */
liftlog_answer liftlog_head_finish(liftlog_state state, const uint8_t *image, size_t image_length);

/* tail start (t), Run to Tail: extents starting above t leave the list; last tail LSN and tail become t; the version rises by
 * one. Deciding. 10, 9, 15. */
liftlog_answer liftlog_tail_start(liftlog_state state, uint8_t *image, size_t image_length, uint32_t t);

/* tail finish, Tail to Run: wipes the write extent from t's place to its end. */
liftlog_answer liftlog_tail_finish(liftlog_state state, uint8_t *image, size_t image_length);

/* close, Run to Closed: last tail LSN = tail, clean 1. Deciding. */
liftlog_answer liftlog_close(liftlog_state state, uint8_t *image, size_t image_length);

/* ---- Calls that change nothing */

/* read (LSN), Run, Zeroed, Written, with or without H: the payload's place in the image and its length. 1, 2, 3, 10, 15. */
liftlog_reading liftlog_read(liftlog_state state, const uint8_t *image, size_t image_length, uint32_t lsn);

/* counts, in any mode: the count of free slots and the live count, tail less head. 1 (E or S out of range), 2. */
liftlog_report liftlog_counts(liftlog_state state);

#ifdef __cplusplus
}
#endif

#endif
