/* A side over a library whose calls take the state by value and hand it back in the answer: each is called as a user calls it who
 * keeps the state in one place. A file of its own includes this for each such library, with CALL(name) for the library's call of
 * that name, SIDE for the side and SIDE_NAME for what it is called in print. */
#include "sides.h"

static int kept(liftlog_state *state, liftlog_store *store, const liftlog_answer *answer)
{
    *state = answer->state;
    *store = answer->store;
    return answer->number;
}

#define STEP(NAME, name, shape, ...)                                                     \
    static int call_##name(liftlog_state *state, TAKES_##shape, liftlog_store *store)    \
    {                                                                                    \
        liftlog_answer answer = CALL(name)(*state, GIVES_##shape);                       \
        return kept(state, store, &answer);                                              \
    }

STEPS(STEP)

static int call_create(liftlog_state *state, TAKES_SIZES, liftlog_store *store)
{
    liftlog_answer answer = CALL(create)(GIVES_SIZES);
    return kept(state, store, &answer);
}

static int call_open(liftlog_state *state, TAKES_LOOK, liftlog_store *store)
{
    liftlog_answer answer = CALL(open)(GIVES_LOOK);
    return kept(state, store, &answer);
}

static int call_read(const liftlog_state *state, TAKES_LSN_LOOK, size_t *place, size_t *payload_length)
{
    liftlog_reading reading = CALL(read)(*state, GIVES_LSN);
    *place = reading.place;
    *payload_length = reading.length;
    return reading.number;
}

static int call_counts(const liftlog_state *state, uint32_t *free_slots, uint32_t *live)
{
    liftlog_report report = CALL(counts)(*state);
    *free_slots = report.free;
    *live = report.live;
    return report.number;
}

#define MEMBER(NAME, name, ...) .name = call_##name,
const struct side SIDE = {.title = SIDE_NAME, CALLS(MEMBER)};
