/* twin: the same log written by hand in C, to measure the proved one against. Same bytes, same state, same numbers, same stores; the
 * state is changed in place behind a pointer. A refused call changes nothing; a refused create or open gives the Closed state of
 * zeros. */
#ifndef TWIN_H
#define TWIN_H

#include "lists.h"

typedef liftlog_state twin_log;

/* Calls that make a state. */
int twin_create(twin_log *log, TAKES_SIZES, liftlog_store *store);
int twin_open(twin_log *log, TAKES_LOOK, liftlog_store *store);

#define TWIN_STEP(NAME, name, shape, ...) int twin_##name(twin_log *log, TAKES_##shape, liftlog_store *store);
STEPS(TWIN_STEP)

/* Calls that change nothing; what they find is zero when they are refused. */
int twin_read(const twin_log *log, TAKES_LSN_LOOK, size_t *place, size_t *payload_length);
int twin_counts(const twin_log *log, uint32_t *free_slots, uint32_t *live);

#endif
