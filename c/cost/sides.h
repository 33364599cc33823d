/* sides: the proved log, the hand-written one and that one by value, behind one face, so that all are given the same work. */
#ifndef SIDES_H
#define SIDES_H

#include "lists.h"
#include "twin.h"

/* Each call changes the state behind the pointer, names its store and returns the number, as the twin's do. */
#define SIDE_CALL(NAME, name, ...) __typeof__(twin_##name) *name;
struct side {
    const char *title;
    CALLS(SIDE_CALL)
};

extern const struct side proved_side, twin_side, value_side;

enum { PROVED, TWIN, BY_VALUE, SIDES };

extern const struct side *const sides[SIDES];

extern const char *const call_names[CALL_COUNT];

struct arguments {
    uint32_t e;
    uint8_t s;
    uint32_t lsn;
    const uint8_t *payload;
    size_t p;
};

/* What a call answers: its number, its store, and what read or counts found, 0 for the others. */
struct outcome {
    int number;
    liftlog_store store;
    size_t found[2];
};

struct outcome make_call(const struct side *side, enum call call, liftlog_state *state, uint8_t *image, size_t length,
                         const struct arguments *with);

#endif
