/* tiny: a log in memory, its stores carried to a device that is memory too; what it logged is read from the device. */
#include <liftlog_medium.h>
#include <stdio.h>
#include <stdlib.h>
#include <string.h>

enum { E = 64, S = 2, LENGTH = LIFTLOG_IMAGE(E, S) };
static uint8_t image[LENGTH], kept[LENGTH];

static int put(void *to, size_t place, const uint8_t *bytes, size_t count)
{
    memcpy((uint8_t *)to + place, bytes, count);
    return 0;
}

static int zero(void *to, size_t place, size_t count)
{
    memset((uint8_t *)to + place, 0, count);
    return 0;
}

static liftlog_state take(liftlog_answer a)
{
    const liftlog_device device = {kept, 1, put, zero, put};
    if (a.number != LIFTLOG_DONE || liftlog_carry(&device, image, a.store) != 0)
        exit(EXIT_FAILURE);
    return a.state;
}

int main(void)
{
    take(liftlog_create(image, LENGTH, E, S));
    memcpy(kept, image, LENGTH);
    liftlog_state state = take(liftlog_open(image, LENGTH));
    state = take(liftlog_wipe(state, image, LENGTH));
    state = take(liftlog_mark(state, image, LENGTH));
    state = take(liftlog_append(state, image, LENGTH, (const uint8_t *)"41 door timeout", 15));
    liftlog_reading r = liftlog_read(state, kept, LENGTH, 1);
    printf("%.*s\n", (int)r.length, (const char *)kept + r.place);
    return r.number;
}
