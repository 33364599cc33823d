/* What liftlog.h has many of, listed once for all that checks, plays or measures it: fields, calls, modes, kinds of store and
 * refusal numbers. Each list takes a macro and gives it an entry at a time. The header itself is written out, to be read. */
#ifndef LISTS_H
#define LISTS_H

#include "liftlog.h"

/* ---- The state, in the order in which logrun prints it */

/* X(field, type, offset, name in scripts, largest value that a script may set) */
#define FIELDS(X)                                        \
    X(mode, uint8_t, 354, "mode", MODE_COUNT - 1)        \
    X(e, uint32_t, 8, "E", UINT32_MAX)                   \
    X(s, uint8_t, 355, "S", UINT8_MAX)                   \
    X(n, uint8_t, 356, "n", UINT8_MAX)                   \
    X(head, uint32_t, 12, "head", UINT32_MAX)            \
    X(tail, uint32_t, 16, "tail", UINT32_MAX)            \
    X(last, uint32_t, 20, "last", UINT32_MAX)            \
    X(version, uint16_t, 352, "version", UINT16_MAX)     \
    X(place, uint32_t, 24, "place", UINT32_MAX)          \
    X(pending, uint64_t, 0, "pending", UINT64_MAX)       \
    X(roll_slot, uint8_t, 357, "rollslot", UINT8_MAX)    \
    X(roll_len, uint32_t, 28, "rolllen", UINT32_MAX)

/* The arrays of 64: X(field, type of an entry, offset, name in print, command that sets an entry, its largest value) */
#define ARRAYS(X)                                              \
    X(slots, uint8_t, 288, "slots", "setslot", UINT8_MAX)      \
    X(starts, uint32_t, 32, "starts", "setstart", UINT32_MAX)

/* ---- The other values: X(field, type, offset) */

#define STORE_FIELDS(X)    \
    X(place, size_t, 0)    \
    X(count, size_t, 8)    \
    X(kind, uint8_t, 16)

#define ANSWER_FIELDS(X)          \
    X(number, uint8_t, 0)         \
    X(store, liftlog_store, 8)    \
    X(state, liftlog_state, 32)

#define READING_FIELDS(X)   \
    X(number, uint8_t, 0)   \
    X(place, size_t, 8)     \
    X(length, size_t, 16)

#define REPORT_FIELDS(X)    \
    X(number, uint8_t, 0)   \
    X(free, uint32_t, 4)    \
    X(live, uint32_t, 8)

/* ---- Calls: X(NAME, name, shape, name in scripts, name in print). The shape says what it takes, below. */

/* The steps, in the order of the table of steps against modes, where read is the last; each gives an answer. */
#define STEPS(X)                                                       \
    X(WIPE, wipe, PLAIN, "wipe", "wipe")                               \
    X(MARK, mark, PLAIN, "mark", "mark")                               \
    X(APPEND, append, PAYLOAD, "append", "append")                     \
    X(ROLL_BEGIN, roll_begin, LENGTH, "begin", "roll begin")           \
    X(ROLL_WRITE, roll_write, PAYLOAD, "write", "roll write")          \
    X(ROLL_LIST, roll_list, PLAIN, "list", "roll list")                \
    X(HEAD_START, head_start, LSN, "head", "head start")               \
    X(HEAD_FINISH, head_finish, LOOK, "headfinish", "head finish")     \
    X(TAIL_START, tail_start, LSN, "tail", "tail start")               \
    X(TAIL_FINISH, tail_finish, PLAIN, "tailfinish", "tail finish")    \
    X(CLOSE, close, PLAIN, "close", "close")

/* Each of the others has parameters or an answer of its own. */
#define OTHER_CALLS(X)                             \
    X(READ, read, LSN_LOOK, "read", "read")        \
    X(OPEN, open, LOOK, "open", "open")            \
    X(COUNTS, counts, NOTHING, "counts", "counts") \
    X(CREATE, create, SIZES, "create", "create")

#define CALLS(X) STEPS(X) OTHER_CALLS(X)

/* Behind the state: the parameters of a shape, and those parameters handed on. */
#define TAKES_PLAIN uint8_t *image, size_t length
#define TAKES_LOOK const uint8_t *image, size_t length
#define TAKES_PAYLOAD TAKES_PLAIN, const uint8_t *payload, size_t p
#define TAKES_LENGTH TAKES_PLAIN, size_t p
#define TAKES_LSN TAKES_PLAIN, uint32_t lsn
#define TAKES_LSN_LOOK TAKES_LOOK, uint32_t lsn
#define TAKES_SIZES TAKES_PLAIN, uint32_t e, uint8_t s

#define GIVES_PLAIN image, length
#define GIVES_LOOK image, length
#define GIVES_PAYLOAD image, length, payload, p
#define GIVES_LENGTH image, length, p
#define GIVES_LSN image, length, lsn
#define GIVES_SIZES image, length, e, s

/* ---- Numbers: X(NAME, number) */

#define MODES(X)       \
    X(CLOSED, 0)       \
    X(OPENED, 1)       \
    X(WIPED, 2)        \
    X(RUN, 3)          \
    X(ZEROED, 4)       \
    X(WRITTEN, 5)      \
    X(TAIL, 6)         \
    X(RUN_H, 7)        \
    X(ZEROED_H, 8)     \
    X(WRITTEN_H, 9)

#define STORES(X)      \
    X(NONE, 0)         \
    X(METADATA, 1)     \
    X(RECORD, 2)       \
    X(WIPE, 3)

#define NUMBERS(X)             \
    X(DONE, 0)                 \
    X(SIZE, 1)                 \
    X(MALFORMED, 2)            \
    X(NOT_ADMITTED, 3)         \
    X(TOO_LONG, 4)             \
    X(NO_ROOM, 5)              \
    X(WOULD_FIT, 6)            \
    X(NO_SLOT, 7)              \
    X(LSNS_SPENT, 8)           \
    X(VERSIONS_SPENT, 9)       \
    X(NOT_LIVE, 10)            \
    X(OTHER_LENGTH, 11)        \
    X(BAD_METADATA, 12)        \
    X(BAD_EXTENTS, 13)         \
    X(BAD_TAIL, 14)            \
    X(NOT_FOUND, 15)           \
    X(SLOT_TWICE, 16)

/* ---- What the lists make */

#define LISTS_NAME(NAME, ...) NAME,
#define LISTS_COUNT(...) +1

/* The calls by name: the steps come first, and are the rows of the table with read. */
enum call { CALLS(LISTS_NAME) CALL_COUNT, STEP_COUNT = 0 STEPS(LISTS_COUNT) };

enum { MODE_COUNT = 0 MODES(LISTS_COUNT), NUMBER_COUNT = 0 NUMBERS(LISTS_COUNT) };

#endif
