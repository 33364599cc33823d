/* The floors look at the bytes that a call must look at and move the bytes that it must move, and test nothing. */
#include "work.h"
#include "chance.h"

#include <string.h>

static uint8_t payload[LIFTLOG_PAYLOAD_MOST];
static uint8_t bytes[LIFTLOG_PAYLOAD_MOST + 14];
static liftlog_store store;
static volatile uint32_t sink;

/* ---- Floors */

/* Where the last listed extent is. */
static uint8_t *write_extent(struct bed *log)
{
    return log->image + LIFTLOG_IMAGE(log->state.e, log->state.slots[log->state.n - 1]);
}

/* Looks at the nine bytes of each record that a walk looks at, and goes on by the lengths. */
static void look_at(const uint8_t *record, const uint8_t *end, uint32_t records)
{
    uint32_t seen = 0;
    for (uint32_t i = 0; i < records && record < end; i++) {
        uint32_t front[2];
        memcpy(front, record, sizeof front);
        uint32_t l = (uint32_t)(record[0] << 8 | record[1]);
        seen ^= front[0] ^ front[1] ^ record[1 + l];
        record += l + 2;
        if (l == 0)
            break;
    }
    sink = seen;
}

static uint32_t listed_in(const liftlog_state *state, unsigned i)
{
    return (i + 1u < state->n ? state->starts[i + 1] : state->tail) - state->starts[i];
}

/* ---- Work */

int work_append(const struct side *side, struct bed *log, const struct job *job)
{
    int number = 0;
    uint8_t *at = write_extent(log) + log->state.place;

    for (unsigned i = 0; i < job->calls; i++) {
        if (side != NULL)
            number |= side->append(&log->state, log->image, log->length, payload, job->p, &store);
        else
            memcpy(at + i * (job->p + LIFTLOG_RECORD), bytes, job->p + LIFTLOG_RECORD);
    }
    return number;
}

int work_roll(const struct side *side, struct bed *log, const struct job *job)
{
    if (side == NULL) {
        uint8_t *extent = log->image + LIFTLOG_IMAGE(log->state.e, log->state.n);
        memset(extent, 0, log->state.e);
        memcpy(extent, bytes, job->p + 14);
        memcpy(log->image, bytes, LIFTLOG_METADATA);
        return 0;
    }
    return side->roll_begin(&log->state, log->image, log->length, job->p, &store) |
           side->roll_write(&log->state, log->image, log->length, payload, job->p, &store) |
           side->roll_list(&log->state, log->image, log->length, &store);
}

int work_head(const struct side *side, struct bed *log, const struct job *job)
{
    if (side == NULL) {
        memcpy(log->image, bytes, LIFTLOG_METADATA);
        return 0;
    }
    return side->head_start(&log->state, log->image, log->length, job->lsn, &store) |
           side->head_finish(&log->state, log->image, log->length, &store);
}

int work_tail(const struct side *side, struct bed *log, const struct job *job)
{
    if (side == NULL) {
        uint8_t *extent = write_extent(log);
        look_at(extent + 5, extent + job->place, UINT32_MAX);
        memset(extent + job->place, 0, log->state.e - job->place);
        memcpy(log->image, bytes, LIFTLOG_METADATA);
        return 0;
    }
    return side->tail_start(&log->state, log->image, log->length, job->lsn, &store) |
           side->tail_finish(&log->state, log->image, log->length, &store);
}

int work_open(const struct side *side, struct bed *log, const struct job *job)
{
    (void)job;
    if (side != NULL)
        return side->open(&log->state, log->image, log->length, &store);
    for (unsigned i = 0; i < log->state.n; i++) {
        const uint8_t *extent = log->image + LIFTLOG_IMAGE(log->state.e, log->state.slots[i]);
        look_at(extent + 5, extent + log->state.e, listed_in(&log->state, i));
    }
    return 0;
}

/* The floor of a read: its extent is found, and the records up to its LSN and the one there are looked at. */
static void look_for(const struct bed *log, uint32_t lsn)
{
    unsigned i = 0;
    while (i + 1u < log->state.n && log->state.starts[i + 1] <= lsn)
        i++;
    const uint8_t *extent = log->image + LIFTLOG_IMAGE(log->state.e, log->state.slots[i]);
    look_at(extent + 5, extent + log->state.e, lsn - log->state.starts[i] + 1);
}

int work_read(const struct side *side, struct bed *log, const struct job *job)
{
    int number = 0;
    size_t place, length;

    for (unsigned i = 0; i < job->calls; i++) {
        if (side != NULL)
            number |= side->read(&log->state, log->image, log->length, job->lsns[i], &place, &length);
        else
            look_for(log, job->lsns[i]);
    }
    return number;
}

/* The test of a state alone: counts does it and no more than count. Its floor is one pass over the state. */
int work_counts(const struct side *side, struct bed *log, const struct job *job)
{
    int number = 0;
    uint32_t free_slots, live;

    for (unsigned i = 0; i < job->calls; i++) {
        if (side != NULL)
            number |= side->counts(&log->state, &free_slots, &live);
        else
            memcpy(bytes, &log->state, sizeof log->state);
    }
    return number;
}

/* ---- Arguments */

void aim(struct job *job, const struct bed *bed)
{
    const liftlog_state *state = &bed->state;
    uint32_t last_start = state->starts[state->n - 1];

    if (job->work == work_append)
        job->calls = (unsigned)((state->e - state->place) / (job->p + LIFTLOG_RECORD));
    if (job->work == work_head)
        job->lsn = state->n > 1 ? state->starts[state->n / 2] : (state->head + state->tail) / 2;
    if (job->work == work_tail) {
        job->lsn = last_start + (state->tail - last_start) / 2;
        job->place = 5 + (job->lsn - last_start) * (MIDDLING + LIFTLOG_RECORD);
    }
    seed_chance(1); /* the same LSNs in every pass */
    for (unsigned i = 0; job->work == work_read && i < READS; i++)
        job->lsns[i] = (uint32_t)from_to(state->head, state->tail - 1);
}
