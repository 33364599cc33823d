/* The order of a store's bytes on a device: pieces that no border of blocks parts, one after the other. */
#include "liftlog_medium.h"

static size_t block_of(const liftlog_device *device)
{
    return device->block > 0 ? device->block : 1;
}

static int carry_record(const liftlog_device *device, const uint8_t *image, size_t from, size_t to)
{
    const size_t block = block_of(device);
    int failed = 0;
    while (from < to && failed == 0) {
        size_t left = block - from % block;
        size_t count = left < to - from ? left : to - from;
        failed = device->write(device->context, from, image + from, count);
        from += count;
    }
    return failed;
}

static int carry_wipe(const liftlog_device *device, size_t from, size_t to)
{
    const size_t block = block_of(device);
    int failed = 0;
    while (from < to && failed == 0) {
        size_t over = (to - 1) % block + 1;
        size_t count = over < to - from ? over : to - from;
        to -= count;
        failed = device->zero(device->context, to, count);
    }
    return failed;
}

int liftlog_carry(const liftlog_device *device, const uint8_t *image, liftlog_store store)
{
    switch (store.kind) {
    case LIFTLOG_STORE_NONE: return 0;
    case LIFTLOG_STORE_METADATA: return device->replace(device->context, store.place, image + store.place, store.count);
    case LIFTLOG_STORE_RECORD: return carry_record(device, image, store.place, store.place + store.count);
    case LIFTLOG_STORE_WIPE: return carry_wipe(device, store.place, store.place + store.count);
    default: return -1;
    }
}
