/* What liftlog_carry asks of a device, at random stores and blocks: every byte of the store once and no other, in its order, in pieces
 * that no border of blocks parts, and nothing behind a piece that fails. It ends with 0 and one line when all of it was so. */
#include <stdio.h>
#include <stdlib.h>
#include <string.h>

#include "chance.h"
#include "liftlog_medium.h"

enum { LENGTH = 700, FAILED = 7, STORES = 20000 };

/* What the device was asked for so far: how many bytes and pieces, and after how many pieces it fails. */
static struct {
    liftlog_store store;
    size_t block;
    size_t taken;
    unsigned pieces;
    unsigned fails_at;
} device;

static uint8_t image[LENGTH];
static unsigned long pieces;

static void expect(bool is_so, const char *what)
{
    if (is_so)
        return;
    fprintf(stderr, "pieces: kind %u, place %zu, count %zu, block %zu: %s\n", device.store.kind, device.store.place,
            device.store.count, device.block, what);
    exit(EXIT_FAILURE);
}

/* A piece of the expected kind: front to back, or last to first. */
static int taken(uint8_t kind, size_t place, size_t count)
{
    size_t left = device.store.count - device.taken;
    expect(device.store.kind == kind, "another kind of piece");
    expect(device.pieces < device.fails_at, "a piece behind one that failed");
    expect(0 < count && count <= left, "too few bytes or too many");
    expect(place == device.store.place + (kind == LIFTLOG_STORE_WIPE ? left - count : device.taken), "another place");
    device.taken += count;
    pieces++;
    return ++device.pieces == device.fails_at ? FAILED : 0;
}

static int write_piece(void *context, size_t place, const uint8_t *bytes, size_t count)
{
    expect(context == &device && bytes == image + place, "other bytes");
    expect(place / device.block == (place + count - 1) / device.block, "a border is crossed");
    return taken(LIFTLOG_STORE_RECORD, place, count);
}

static int zero_piece(void *context, size_t place, size_t count)
{
    expect(context == &device, "another context");
    expect(place / device.block == (place + count - 1) / device.block, "a border is crossed");
    return taken(LIFTLOG_STORE_WIPE, place, count);
}

static int replace_all(void *context, size_t place, const uint8_t *bytes, size_t count)
{
    expect(context == &device && bytes == image + place && count == device.store.count, "not whole");
    return taken(LIFTLOG_STORE_METADATA, place, count);
}

static void try_store(void)
{
    size_t place = below(LENGTH);
    size_t count = from_to(1, LENGTH - place);
    uint8_t kind = (uint8_t)from_to(LIFTLOG_STORE_METADATA, LIFTLOG_STORE_WIPE);

    memset(&device, 0, sizeof device);
    device.store = (liftlog_store){place, count, kind};
    device.block = one_in(4) ? (size_t)1 << below(10) : from_to(1, 90);
    device.fails_at = one_in(2) ? (unsigned)from_to(1, 20) : UINT32_MAX;
    liftlog_device asked = {&device, device.block, write_piece, zero_piece, replace_all};
    int number = liftlog_carry(&asked, image, device.store);
    bool has_failed = device.pieces == device.fails_at;
    expect(number == (has_failed ? FAILED : 0), "another number");
    expect(has_failed || device.taken == count, "bytes are missing");
}

/* No store, no known kind, and a block of no bytes. */
static void try_edges(void)
{
    device.fails_at = UINT32_MAX;
    device.block = 1;
    liftlog_device asked = {&device, 0, write_piece, zero_piece, replace_all};
    expect(liftlog_carry(&asked, image, (liftlog_store){0, 0, LIFTLOG_STORE_NONE}) == 0, "none is not 0");
    expect(liftlog_carry(&asked, image, (liftlog_store){0, 1, LIFTLOG_STORE_WIPE + 1}) == -1, "an unknown kind is not -1");
    device.store = (liftlog_store){3, 5, LIFTLOG_STORE_WIPE};
    expect(liftlog_carry(&asked, image, device.store) == 0 && device.pieces == 5, "a block of 0 is not one of 1");
}

int main(void)
{
    try_edges();
    for (int i = 0; i < STORES; i++)
        try_store();
    printf("pieces: %d stores in %lu pieces, each in its order and inside a block\n", STORES, pieces);
    return EXIT_SUCCESS;
}
