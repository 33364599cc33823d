/* What no script can say. A mode above 9: such a state is malformed in every call, 2, behind 1, and neither state nor image
 * changes. A null pointer with length 0: it is an empty part. It ends with 0 when each of those modes was refused so, with and
 * without a wrong size, and each null pointer was taken so. */
#include <stdio.h>
#include <stdlib.h>
#include <string.h>

#include "same.h"

enum { IMAGE_LENGTH = LIFTLOG_IMAGE(64, 3) };

static uint8_t log_image[IMAGE_LENGTH];
static const uint8_t payload[3] = {1, 2, 3};

static liftlog_answer step(enum call call, liftlog_state state, uint8_t *image, size_t length)
{
    const size_t p = sizeof payload;
    const uint32_t lsn = 1;
    switch (call) {
#define STEP(NAME, name, shape, ...) case NAME: return liftlog_##name(state, GIVES_##shape);
    STEPS(STEP)
    default: abort();
    }
}

static void expect(int is_so, const char *what, unsigned mode, int call)
{
    if (is_so)
        return;
    fprintf(stderr, "unsaid: mode %u, call %d: %s\n", mode, call, what);
    exit(EXIT_FAILURE);
}

/* Every call on the state gives the number, names no store and changes nothing. */
static void refused(liftlog_state s, uint8_t *image, size_t length, uint8_t number)
{
    const liftlog_store none = {0, 0, LIFTLOG_STORE_NONE};
    uint8_t before[IMAGE_LENGTH];
    memcpy(before, log_image, IMAGE_LENGTH);
    for (int i = 0; i < STEP_COUNT; i++) {
        liftlog_answer a = step((enum call)i, s, image, length);
        expect(a.number == number, "another number", s.mode, i);
        expect(same_store(&a.store, &none), "a store is named", s.mode, i);
        expect(same_state(&a.state, &s), "the state changed", s.mode, i);
        expect(memcmp(before, log_image, IMAGE_LENGTH) == 0, "the image changed", s.mode, i);
    }
    liftlog_reading r = liftlog_read(s, image, length, 1);
    expect(r.number == number && r.place == 0 && r.length == 0, "another reading", s.mode, READ);
}

static void counts_refused(liftlog_state s, uint8_t number)
{
    liftlog_report r = liftlog_counts(s);
    expect(r.number == number && r.free == 0 && r.live == 0, "another report", s.mode, COUNTS);
}

static void try_modes(void)
{
    liftlog_state s = liftlog_create(log_image, IMAGE_LENGTH, 64, 3).state;
    liftlog_state out_of_range = s;
    out_of_range.s = LIFTLOG_S_MOST + 1;
    for (unsigned mode = MODE_COUNT; mode <= UINT8_MAX; mode++) {
        s.mode = out_of_range.mode = (uint8_t)mode;
        refused(s, log_image, IMAGE_LENGTH, LIFTLOG_MALFORMED);
        refused(s, log_image, IMAGE_LENGTH - 1, LIFTLOG_SIZE);
        refused(out_of_range, log_image, IMAGE_LENGTH, LIFTLOG_SIZE);
        counts_refused(s, LIFTLOG_MALFORMED);
        counts_refused(out_of_range, LIFTLOG_SIZE);
    }
}

static liftlog_state done(liftlog_answer a, size_t count, int call)
{
    expect(a.number == LIFTLOG_DONE, "refused", a.state.mode, call);
    expect(a.store.count == count, "another count", a.state.mode, call);
    return a.state;
}

/* Empty payloads, appended until the write extent has no room, and one that is rolled with. */
static liftlog_state log_nothing(liftlog_state s)
{
    while (s.place + LIFTLOG_RECORD <= s.e)
        s = done(liftlog_append(s, log_image, IMAGE_LENGTH, NULL, 0), LIFTLOG_RECORD, APPEND);
    s = done(liftlog_roll_begin(s, log_image, IMAGE_LENGTH, 0), s.e, ROLL_BEGIN);
    s = done(liftlog_roll_write(s, log_image, IMAGE_LENGTH, NULL, 0), 5 + LIFTLOG_RECORD, ROLL_WRITE);
    return done(liftlog_roll_list(s, log_image, IMAGE_LENGTH), LIFTLOG_METADATA, ROLL_LIST);
}

static void try_null(void)
{
    liftlog_state s = done(liftlog_create(log_image, IMAGE_LENGTH, 64, 3), 0, CREATE);
    s = done(liftlog_open(log_image, IMAGE_LENGTH), 0, OPEN);
    s = done(liftlog_wipe(s, log_image, IMAGE_LENGTH), 64 - 5, WIPE);
    s = done(liftlog_mark(s, log_image, IMAGE_LENGTH), LIFTLOG_METADATA, MARK);
    s = log_nothing(s);
    for (uint32_t lsn = s.head; lsn < s.tail; lsn++) {
        liftlog_reading r = liftlog_read(s, log_image, IMAGE_LENGTH, lsn);
        expect(r.number == LIFTLOG_DONE && r.length == 0, "another reading", s.mode, READ);
    }
    refused(s, NULL, 0, LIFTLOG_SIZE);
    expect(liftlog_open(NULL, 0).number == LIFTLOG_SIZE, "another number", 0, OPEN);
    expect(liftlog_create(NULL, 0, 64, 3).number == LIFTLOG_SIZE, "another number", 0, CREATE);
}

int main(void)
{
    try_modes();
    try_null();
    return EXIT_SUCCESS;
}
