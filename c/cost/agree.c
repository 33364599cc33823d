/* agree [CALLS [SEED]]: random calls on all sides, with good and bad arguments, on states and images that are sound, made up or
 * damaged. Number, store, state, image and what was found are compared after each; the first difference ends the run. */
#include "chance.h"
#include "forge.h"
#include "same.h"
#include "sides.h"

#include <stdio.h>
#include <stdlib.h>
#include <string.h>

/* A log as one side has it. */
struct box {
    liftlog_state state;
    uint8_t *image;
};

static struct box boxes[SIDES];
static size_t length;
static uint8_t payload[LIFTLOG_PAYLOAD_MOST + 2];
static unsigned long given[NUMBER_COUNT];

/* What the outcome of a call on one more side, and its box, have other than the first side's; NULL if nothing. */
static const char *difference(const struct outcome *first, const struct outcome *out, const struct box *box, size_t image_length)
{
    if (first->number != out->number)
        return "number";
    if (!same_store(&first->store, &out->store))
        return "store";
    if (memcmp(first->found, out->found, sizeof first->found) != 0)
        return "what it found";
    if (!same_state(&boxes[0].state, &box->state))
        return "state";
    if (memcmp(boxes[0].image, box->image, image_length) != 0)
        return "image";
    return NULL;
}

/* The same call on all sides, on images of some length. */
static int compared(enum call call, const struct arguments *with, size_t image_length)
{
    struct outcome first = make_call(sides[0], call, &boxes[0].state, boxes[0].image, image_length, with);

    for (int i = 1; i < SIDES; i++) {
        struct outcome out = make_call(sides[i], call, &boxes[i].state, boxes[i].image, image_length, with);
        const char *what = difference(&first, &out, &boxes[i], image_length);
        if (what == NULL)
            continue;
        fprintf(stderr, "agree: %s differs in %s: %s %d, %s %d\n", call_names[call], what, sides[0]->title, first.number,
                sides[i]->title, out.number);
        exit(1);
    }
    given[first.number]++;
    return first.number;
}

static void set_states(const liftlog_state *state)
{
    for (int i = 0; i < SIDES; i++)
        boxes[i].state = *state;
}

static void set_images(const uint8_t *image)
{
    for (int i = 0; i < SIDES; i++)
        memcpy(boxes[i].image, image, length);
}

/* ---- Arguments */

static uint32_t some_lsn(const liftlog_state *state)
{
    const uint32_t marks[] = {state->head, state->tail, state->last, state->starts[below(64)], (uint32_t)draw()};
    if (one_in(2) && state->head < state->tail)
        return (uint32_t)from_to(state->head, state->tail);
    return marks[below(5)] - 1 + (uint32_t)below(3);
}

/* A payload's length: any, the longest, what just fits the write extent, or the announced one. */
static size_t some_length(const liftlog_state *state)
{
    size_t fits = (size_t)state->e - state->place - LIFTLOG_RECORD;
    const size_t marks[] = {state->e - 14u, fits, state->roll_len, LIFTLOG_PAYLOAD_MOST, 0};
    size_t p = one_in(3) ? below(64) : marks[below(5)];
    if (one_in(4))
        p += below(3) - 1;
    return p <= sizeof payload ? p : sizeof payload;
}

static struct arguments some_arguments(const liftlog_state *state)
{
    struct arguments with = {(uint32_t)from_to(63, 200), (uint8_t)from_to(1, 66), some_lsn(state), payload, some_length(state)};
    payload[below(sizeof payload)] = (uint8_t)draw();
    return with;
}

/* ---- Lives */

static void lay_images(size_t bytes)
{
    length = bytes;
    for (int i = 0; i < SIDES; i++) {
        free(boxes[i].image);
        boxes[i].image = calloc(1, length);
    }
}

/* A log that runs, at an E and S of which small ones are likely. */
static void begin_life(void)
{
    static const enum call first[] = {CREATE, OPEN, WIPE, MARK};
    uint32_t e = (uint32_t)(one_in(3) ? from_to(64, 80) : one_in(20) ? from_to(1030, 4000) : from_to(64, 400));
    uint8_t s = (uint8_t)(one_in(3) ? from_to(2, 5) : one_in(4) ? 64 : from_to(2, 64));
    struct arguments with = {e, s, 0, payload, 0};

    lay_images(LIFTLOG_IMAGE(e, s));
    for (unsigned i = 0; i < 4; i++)
        if (compared(first[i], &with, length) != LIFTLOG_DONE)
            exit(1);
}

/* The call that a user would most likely make in this mode. */
static enum call likely_call(uint8_t mode)
{
    static const enum call running[] = {APPEND,     APPEND,     APPEND,     APPEND,     ROLL_BEGIN,
                                        ROLL_BEGIN, ROLL_BEGIN, HEAD_START, TAIL_START, READ};
    switch (mode) {
    case LIFTLOG_MODE_OPENED: return WIPE;
    case LIFTLOG_MODE_WIPED: return MARK;
    case LIFTLOG_MODE_RUN: return one_in(40) ? CLOSE : running[below(10)];
    case LIFTLOG_MODE_RUN_H: return one_in(4) ? HEAD_FINISH : running[below(10)];
    case LIFTLOG_MODE_ZEROED: return ROLL_WRITE;
    case LIFTLOG_MODE_ZEROED_H: return one_in(4) ? HEAD_FINISH : ROLL_WRITE;
    case LIFTLOG_MODE_WRITTEN: return ROLL_LIST;
    case LIFTLOG_MODE_WRITTEN_H: return one_in(4) ? HEAD_FINISH : ROLL_LIST;
    case LIFTLOG_MODE_TAIL: return TAIL_FINISH;
    default: return OPEN;
    }
}

static enum call some_call(uint8_t mode)
{
    if (one_in(4))
        return (enum call)from_to(WIPE, COUNTS);
    return one_in(30) ? OPEN : likely_call(mode);
}

/* A length that is not the image's. */
static void call_with_other_length(void)
{
    struct box kept[SIDES];
    size_t others[] = {length - 1, length + 1, from_to(83, 85), below(100), below(length)};
    size_t other = others[below(5)];
    size_t changed = below(84);
    uint8_t byte = (uint8_t)(boxes[0].image[changed] ^ below(2));
    struct arguments with = some_arguments(&boxes[0].state);

    memcpy(kept, boxes, sizeof kept);
    for (int i = 0; i < SIDES; i++) {
        boxes[i].image = calloc(1, other > 0 ? other : 1);
        memcpy(boxes[i].image, kept[i].image, other < length ? other : length);
        if (changed < other)
            boxes[i].image[changed] = byte;
    }
    compared(one_in(3) ? OPEN : (enum call)below(CALL_COUNT), &with, other);
    for (int i = 0; i < SIDES; i++) {
        free(boxes[i].image);
        boxes[i] = kept[i];
    }
}

/* A few calls from a state that is made up or damaged; then, mostly, the old state is back. */
static void call_with_bad_state(void)
{
    liftlog_state kept = boxes[0].state;
    liftlog_state bad = one_in(2) ? forged_state(kept.e, kept.s) : kept;

    for (unsigned i = (unsigned)below(3); i > 0; i--)
        damage_state(&bad);
    set_states(&bad);
    for (unsigned i = (unsigned)from_to(1, 4); i > 0; i--) {
        struct arguments with = some_arguments(&boxes[0].state);
        compared(some_call(boxes[0].state.mode), &with, length);
    }
    if (!one_in(4))
        set_states(&kept);
}

/* Open, read or tail start on damaged bytes; then, mostly, the old bytes are back. */
static void call_with_bad_image(void)
{
    static const enum call looking[] = {OPEN, OPEN, OPEN, READ, TAIL_START};
    liftlog_state kept_state = boxes[0].state;
    uint8_t *kept = malloc(length);
    uint8_t *bad = malloc(length);

    memcpy(kept, boxes[0].image, length);
    memcpy(bad, kept, length);
    for (unsigned i = (unsigned)from_to(1, 3); i > 0; i--)
        damage_image(bad, length, &kept_state);
    set_images(bad);
    struct arguments with = some_arguments(&kept_state);
    compared(looking[below(5)], &with, length);
    if (!one_in(10)) {
        set_states(&kept_state);
        set_images(kept);
    }
    free(bad);
    free(kept);
}

static void live(void)
{
    begin_life();
    for (unsigned i = (unsigned)from_to(20, 400); i > 0; i--) {
        const liftlog_state *state = &boxes[0].state;
        if (state->e < LIFTLOG_E_LEAST || state->s < LIFTLOG_S_LEAST || LIFTLOG_IMAGE(state->e, state->s) != length)
            return;
        if (one_in(50))
            call_with_other_length();
        else if (one_in(6))
            call_with_bad_state();
        else if (one_in(8))
            call_with_bad_image();
        struct arguments with = some_arguments(state);
        compared(some_call(state->mode), &with, length);
    }
}

int main(int count, char **words)
{
    unsigned long wanted = count > 1 ? strtoul(words[1], NULL, 10) : 500000;
    unsigned long made = 0;

    seed_chance(count > 2 ? strtoull(words[2], NULL, 10) : 1);
    while (made < wanted) {
        live();
        made = 0;
        for (int i = 0; i < NUMBER_COUNT; i++)
            made += given[i];
    }
    printf("agree: %lu calls, no difference\nnumber  times given\n", made);
    for (int i = 0; i < NUMBER_COUNT; i++)
        printf("%6d  %11lu\n", i, given[i]);
    return 0;
}
