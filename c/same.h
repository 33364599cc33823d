/* same: whether two values are equal in every field; the bytes that pad a value to its size do not count. */
#ifndef SAME_H
#define SAME_H

#include <stdbool.h>
#include <string.h>

#include "lists.h"

static inline bool same_state(const liftlog_state *a, const liftlog_state *b)
{
#define SAME_FIELD(field, ...) && a->field == b->field
#define SAME_ARRAY(field, ...) && memcmp(a->field, b->field, sizeof a->field) == 0
    return true FIELDS(SAME_FIELD) ARRAYS(SAME_ARRAY);
#undef SAME_ARRAY
}

static inline bool same_store(const liftlog_store *a, const liftlog_store *b)
{
    return true STORE_FIELDS(SAME_FIELD);
#undef SAME_FIELD
}

#endif
