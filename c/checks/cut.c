/* The device has blocks of one byte, so that a store can be cut after any k. */
#include "cut.h"

#include <string.h>

#include "liftlog_medium.h"

enum { POWER_GONE = 1 };

struct failing {
    uint8_t *kept;
    uint64_t left;
};

static int replace(void *context, size_t place, const uint8_t *bytes, size_t count)
{
    struct failing *device = context;
    if (device->left < count)
        return POWER_GONE;
    device->left -= count;
    memcpy(device->kept + place, bytes, count);
    return 0;
}

static int zero(void *context, size_t place, size_t count)
{
    struct failing *device = context;
    if (device->left < count)
        return POWER_GONE;
    device->left -= count;
    memset(device->kept + place, 0, count);
    return 0;
}

void carry_cut(uint8_t *kept, const uint8_t *image, liftlog_store store, uint64_t k)
{
    struct failing failing = {kept, k};
    liftlog_device device = {&failing, 1, replace, zero, replace};
    liftlog_carry(&device, image, store);
}
