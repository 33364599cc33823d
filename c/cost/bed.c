/* Beds are laid by the twin; that both sides would lay the same one is what agree tests. */
#include "bed.h"
#include "twin.h"

#include <stdio.h>
#include <stdlib.h>

static uint8_t payload[MIDDLING];
static liftlog_store store;

static void must(int number, const char *call)
{
    if (number == LIFTLOG_DONE)
        return;
    fprintf(stderr, "bed: %s gives %d\n", call, number);
    exit(1);
}

static void fill(struct bed *bed)
{
    while (bed->state.place + MIDDLING + LIFTLOG_RECORD <= bed->state.e)
        must(twin_append(&bed->state, bed->image, bed->length, payload, MIDDLING, &store), "append");
}

static void roll(struct bed *bed)
{
    must(twin_roll_begin(&bed->state, bed->image, bed->length, MIDDLING, &store), "roll begin");
    must(twin_roll_write(&bed->state, bed->image, bed->length, payload, MIDDLING, &store), "roll write");
    must(twin_roll_list(&bed->state, bed->image, bed->length, &store), "roll list");
}

struct bed made_bed(uint32_t e, uint8_t s, uint8_t n, enum filling filling)
{
    struct bed bed;

    for (unsigned i = 0; i < MIDDLING; i++)
        payload[i] = (uint8_t)i;
    bed.length = LIFTLOG_IMAGE(e, s);
    bed.image = malloc(bed.length);
    must(bed.image == NULL, "malloc");
    must(twin_create(&bed.state, bed.image, bed.length, e, s, &store), "create");
    must(twin_open(&bed.state, bed.image, bed.length, &store), "open");
    must(twin_wipe(&bed.state, bed.image, bed.length, &store), "wipe");
    must(twin_mark(&bed.state, bed.image, bed.length, &store), "mark");
    must(twin_append(&bed.state, bed.image, bed.length, payload, MIDDLING, &store), "append");
    while (bed.state.n < n) {
        fill(&bed);
        roll(&bed);
    }
    if (filling == FULL)
        fill(&bed);
    return bed;
}
