/* Made-up states keep the rules of a well-formed one, mostly; damage breaks one of them, mostly at its edge. */
#include "forge.h"
#include "chance.h"

#include <string.h>

/* The slots in a random order. */
static void shuffle(uint8_t *slots, uint8_t s)
{
    for (uint8_t i = 0; i < s; i++)
        slots[i] = i;
    for (uint8_t i = (uint8_t)(s - 1); i > 0; i--) {
        uint8_t j = (uint8_t)below(i + 1u);
        uint8_t kept = slots[i];
        slots[i] = slots[j];
        slots[j] = kept;
    }
}

/* Starts, head, tail and last tail LSN, now and then close to the last LSN. */
static void forge_lsns(liftlog_state *state)
{
    uint32_t gap = (uint32_t)from_to(1, 20);
    uint32_t next = one_in(3) ? LIFTLOG_LSN_SPENT - (uint32_t)below(3) - gap * state->n : (uint32_t)from_to(1, 1000);

    for (unsigned i = 0; i < state->n; i++) {
        state->starts[i] = next;
        next += (uint32_t)from_to(1, gap);
    }
    uint32_t last_start = state->starts[state->n - 1];
    state->tail = one_in(4) ? last_start : next;
    if (one_in(8) && next > UINT32_MAX / 2)
        state->tail = LIFTLOG_LSN_SPENT;
    uint32_t head_most = state->n > 1 ? state->starts[1] - 1 : state->tail;
    state->head = (uint32_t)from_to(state->starts[0], head_most);
    state->last = (uint32_t)from_to(state->tail > 40 ? state->tail - 40 : 1, state->tail);
}

/* Some unlisted slots become pending, and one of them is the roll's, as the mode asks. */
static void forge_slots_in_hand(liftlog_state *state, const uint8_t *order)
{
    bool has_h = state->mode >= LIFTLOG_MODE_RUN_H;
    bool in_roll = state->mode == LIFTLOG_MODE_ZEROED || state->mode == LIFTLOG_MODE_WRITTEN ||
                   state->mode >= LIFTLOG_MODE_ZEROED_H;
    unsigned unlisted = state->n;

    if (in_roll && unlisted < state->s) {
        uint32_t most = state->e - 14 < LIFTLOG_PAYLOAD_MOST ? state->e - 14 : LIFTLOG_PAYLOAD_MOST;
        uint32_t room = state->e - state->place;
        uint32_t least = room < LIFTLOG_RECORD ? 0 : room - LIFTLOG_RECORD + 1;
        state->roll_slot = order[unlisted++];
        state->roll_len = (uint32_t)from_to(least < most ? least : most, most);
    }
    for (; has_h && unlisted < state->s; unlisted++)
        if (one_in(2))
            state->pending |= UINT64_C(1) << order[unlisted];
}

liftlog_state forged_state(uint32_t e, uint8_t s)
{
    liftlog_state state;
    uint8_t order[64];

    memset(&state, 0, sizeof state);
    state.e = e;
    state.s = s;
    state.n = (uint8_t)(one_in(3) ? s - below(2) : from_to(1, s));
    state.mode = (uint8_t)below(MODE_COUNT);
    state.version = (uint16_t)(one_in(4) ? from_to(65534, 65535) : from_to(1, 9));
    shuffle(order, s);
    memcpy(state.slots, order, state.n);
    forge_lsns(&state);
    if (state.tail == state.starts[state.n - 1])
        state.place = 5;
    else
        state.place = one_in(2) ? e - (uint32_t)below(20) : (uint32_t)from_to(14, e);
    forge_slots_in_hand(&state, order);
    return state;
}

static uint32_t near(uint32_t x)
{
    return x - 1 + (uint32_t)below(3);
}

static void damage_lsn(liftlog_state *state)
{
    uint32_t *any_start = &state->starts[below(64)];
    uint32_t *listed_start = &state->starts[below(state->n % 64 + 1u) % 64];
    uint32_t *lsns[] = {&state->head, &state->tail, &state->last, any_start, listed_start};
    uint32_t others[] = {state->head,      state->tail, state->last,       state->starts[0],
                         state->starts[1], 0,           LIFTLOG_LSN_SPENT, (uint32_t)draw()};
    *lsns[below(5)] = near(others[below(8)]);
}

static void damage_slot(liftlog_state *state)
{
    switch (below(5)) {
    case 0: state->slots[below(64)] = (uint8_t)below(66); break;
    case 1: state->slots[below(64)] = state->slots[below(64)]; break;
    case 2: state->roll_slot = (uint8_t)(one_in(2) ? state->slots[below(64)] : below(66)); break;
    case 3: state->pending ^= UINT64_C(1) << below(64); break;
    default: state->n = (uint8_t)near(one_in(2) ? state->n : state->s); break;
    }
}

static void damage_size(liftlog_state *state)
{
    const uint32_t edges[] = {0, 5, 64, 65536, state->e, state->place, state->e - 14, state->e - 9 - state->place};
    switch (below(5)) {
    case 0: state->e = near(edges[below(8)]); break;
    case 1: state->s = (uint8_t)near(one_in(2) ? state->s : 64); break;
    case 2: state->place = near(edges[below(8)]); break;
    case 3: state->roll_len = near(edges[below(8)]); break;
    default: state->version = (uint16_t)near(one_in(2) ? 0 : state->version); break;
    }
}

void damage_state(liftlog_state *state)
{
    switch (below(5)) {
    case 0: damage_lsn(state); break;
    case 1: damage_slot(state); break;
    case 2: damage_size(state); break;
    case 3: state->mode = (uint8_t)(one_in(4) ? draw() : below(12)); break;
    default: ((uint8_t *)state)[below(sizeof *state)] ^= (uint8_t)(1u << below(8)); break;
    }
}

static void put32(uint8_t *at, uint32_t x)
{
    for (int i = 0; i < 4; i++)
        at[i] = (uint8_t)(x >> (24 - 8 * i));
}

/* An extent starts where another does, or at the tail. */
static void restart(uint8_t *image, const liftlog_state *state, uint8_t slot)
{
    size_t extent = 84 + slot * (size_t)state->e;
    image[extent] = 1;
    put32(image + extent + 1, one_in(2) ? state->tail : state->starts[below(64)]);
}

/* The metadata keeps its rules, but its listing or its head is another. */
static void relist(uint8_t *image, const liftlog_state *state)
{
    uint8_t n = (uint8_t)(1 + image[19] % 64);
    uint8_t other = (uint8_t)below(state->s);

    switch (below(3)) {
    case 0: /* one slot more */
        image[20 + n - 1] = other;
        image[19] = n;
        image[2] = (uint8_t)(17 + n);
        if (one_in(2))
            restart(image, state, other);
        break;
    case 1: image[20 + below(n)] = other; break;
    default: put32(image + 8, near(one_in(2) ? state->starts[1] : state->tail)); break;
    }
}

void damage_image(uint8_t *image, size_t length, const liftlog_state *state)
{
    if (one_in(4)) {
        relist(image, state);
        return;
    }
    if (one_in(6)) {
        restart(image, state, (uint8_t)below(state->s));
        return;
    }
    size_t at = below(length);
    size_t extent = 84 + (size_t)state->slots[below(64)] * state->e;

    if (one_in(2))
        at = one_in(3) ? below(84) : below(24);
    else if (one_in(2) && extent + state->place < length)
        at = extent + below(one_in(2) ? 16 : state->place + 1u);
    if (at < length)
        image[at] = one_in(2) ? (uint8_t)near(image[at]) : (uint8_t)draw();
}
