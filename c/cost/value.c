/* The state that comes in is the call's own: the twin changes it where it is, and it is copied once, into the answer. */
#include "value.h"
#include "twin.h"

static liftlog_answer answered(int number, const liftlog_store *store, const liftlog_state *state)
{
    return (liftlog_answer){(uint8_t)number, *store, *state};
}

#define STEP(NAME, name, shape, ...)                                    \
    liftlog_answer value_##name(liftlog_state state, TAKES_##shape)     \
    {                                                                   \
        liftlog_store store;                                            \
        int number = twin_##name(&state, GIVES_##shape, &store);        \
        return answered(number, &store, &state);                        \
    }

STEPS(STEP)

liftlog_answer value_create(TAKES_SIZES)
{
    liftlog_state state;
    liftlog_store store;
    int number = twin_create(&state, GIVES_SIZES, &store);
    return answered(number, &store, &state);
}

liftlog_answer value_open(TAKES_LOOK)
{
    liftlog_state state;
    liftlog_store store;
    int number = twin_open(&state, GIVES_LOOK, &store);
    return answered(number, &store, &state);
}

liftlog_reading value_read(liftlog_state state, TAKES_LSN_LOOK)
{
    liftlog_reading reading;
    reading.number = (uint8_t)twin_read(&state, GIVES_LSN, &reading.place, &reading.length);
    return reading;
}

liftlog_report value_counts(liftlog_state state)
{
    liftlog_report report;
    report.number = (uint8_t)twin_counts(&state, &report.free, &report.live);
    return report;
}
