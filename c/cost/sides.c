/* The twin is a side as it is; the others are by_value.h over a library each. */
#include "sides.h"

#define TWIN_MEMBER(NAME, name, ...) .name = twin_##name,
const struct side twin_side = {.title = "twin", CALLS(TWIN_MEMBER)};

const struct side *const sides[SIDES] = {[PROVED] = &proved_side, [TWIN] = &twin_side, [BY_VALUE] = &value_side};

#define PRINTED(NAME, name, shape, word, print) [NAME] = print,
const char *const call_names[CALL_COUNT] = {CALLS(PRINTED)};

struct outcome make_call(const struct side *side, enum call call, liftlog_state *state, uint8_t *image, size_t length,
                         const struct arguments *with)
{
    struct outcome out = {0, {0, 0, LIFTLOG_STORE_NONE}, {0, 0}};
    uint32_t lsn = with->lsn;
    const uint8_t *payload = with->payload;
    size_t p = with->p;
    uint32_t free_slots, live;

    switch (call) {
#define STEP(NAME, name, shape, ...) case NAME: out.number = side->name(state, GIVES_##shape, &out.store); break;
    STEPS(STEP)
    case CREATE: out.number = side->create(state, image, length, with->e, with->s, &out.store); break;
    case OPEN: out.number = side->open(state, image, length, &out.store); break;
    case READ: out.number = side->read(state, image, length, lsn, &out.found[0], &out.found[1]); break;
    case COUNTS:
        out.number = side->counts(state, &free_slots, &live);
        out.found[0] = free_slots;
        out.found[1] = live;
        break;
    case CALL_COUNT: break;
    }
    return out;
}
