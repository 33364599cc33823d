/* player: logrun in C. It drives a log through liftlog.h by a script on standard input, and what it prints is to be what logrun
 * prints, byte for byte: so the calls as C makes them answer as the calls that were proved. */
#define _POSIX_C_SOURCE 200809L
#include <stdio.h>
#include <stdlib.h>
#include <string.h>

#include "cut.h"
#include "liftlog.h"
#include "script.h"
#include "show.h"

static liftlog_state state;
static uint8_t image[LONGEST_IMAGE];
static size_t length;

/* The Closed state of zeros: what open gives of no image. */
static liftlog_state no_state(void)
{
    return liftlog_open(image, 0).state;
}

/* A call that only looks leaves the state. */
static liftlog_answer looked(uint8_t number)
{
    return (liftlog_answer){.number = number, .state = state};
}

static liftlog_answer call(const struct command *c)
{
    const uint8_t *payload = c->payload;
    size_t p = (size_t)c->p;
    uint32_t lsn = (uint32_t)c->lsn;
    switch (c->call) {
#define STEP(NAME, name, shape, ...) case NAME: return liftlog_##name(state, GIVES_##shape);
    STEPS(STEP)
    case OPEN: return liftlog_open(image, length);
    case READ: return looked(liftlog_read(state, image, length, lsn).number);
    default: return looked(liftlog_counts(state).number);
    }
}

/* What a call shows besides its number. */
static void show_view(const struct command *c)
{
    if (c->call == READ) {
        liftlog_reading r = liftlog_read(state, image, length, (uint32_t)c->lsn);
        printf(" %zu %zu", r.place, r.length);
        show_bytes(image + r.place, r.length);
    }
    if (c->call == COUNTS) {
        liftlog_report r = liftlog_counts(state);
        printf(" %u %u", (unsigned)r.free, (unsigned)r.live);
    }
}

/* The device: what it holds after a call is kept. */
static uint8_t kept[LONGEST_IMAGE];

/* The call works on memory, and k bytes of its store arrive on the device, which begins with the image before the call. */
static liftlog_answer carried(const struct command *c, uint64_t k)
{
    memcpy(kept, image, length);
    liftlog_answer a = call(c);
    carry_cut(kept, image, a.store, k);
    printf(" %u", a.number);
    return a;
}

/* A store that arrives whole is all that the call has changed. */
static void whole(const struct command *c)
{
    state = carried(c, UINT64_MAX).state;
    if (memcmp(kept, image, length) == 0)
        return;
    fprintf(stderr, "player: what is carried of call %d is not what it changed\n", c->call);
    exit(EXIT_FAILURE);
}

/* What has arrived is the image from then on. The state is lost, whatever the call answered. */
static void cut(const struct command *c)
{
    carried(c, c->k);
    memcpy(image, kept, length);
    state = no_state();
}

static void create(const struct command *c)
{
    liftlog_answer a = liftlog_create(image, length, (uint32_t)c->first, (uint8_t)c->second);
    printf(" %u", a.number);
    state = a.state;
}

static void set(const struct command *c)
{
    uint64_t v = c->first;
    switch (c->field) {
#define SET_FIELD(field, type, ...) case FIELD_##field: state.field = (type)v; break;
    FIELDS(SET_FIELD)
    case FIELD_COUNT: break;
    }
}

static void renew(size_t asked)
{
    length = asked;
    memset(image, 0, length);
    state = no_state();
}

static void perform(const struct command *c)
{
    switch (c->kind) {
    case NEW: renew((size_t)c->first); break;
    case LAY: create(c); break;
    case DO: whole(c); show_view(c); break;
    case CUT: cut(c); break;
    case POKE:
        if (c->first < length)
            image[c->first] = (uint8_t)c->second;
        break;
    case SET: set(c); break;
#define SET_ENTRY(field, type, ...) case SET_##field: state.field[c->first] = (type)c->second; break;
    ARRAYS(SET_ENTRY)
    default: show_bytes(image, length); break;
    }
}

static void answer(const char *line, size_t line_length)
{
    struct command c = parse(line, line_length);
    if (c.kind == BAD) {
        puts("bad");
        return;
    }
    const char *space = memchr(line, ' ', line_length);
    fwrite(line, 1, space ? (size_t)(space - line) : line_length, stdout);
    perform(&c);
    show_state(&state, image, length);
}

int main(void)
{
    char *line = NULL;
    size_t room = 0;
    ssize_t n;
    state = no_state();
    while ((n = getline(&line, &room, stdin)) > 0) {
        size_t line_length = (size_t)n;
        if (line[line_length - 1] == '\n')
            line_length--;
        answer(line, line_length);
    }
    free(line);
    return fflush(stdout) == 0 ? EXIT_SUCCESS : EXIT_FAILURE;
}
