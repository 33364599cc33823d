/* Answers printed in logrun's form. */
#include "show.h"

#include <inttypes.h>
#include <stdio.h>

#include "lists.h"

/* CRC-32 as zlib and gzip have it, half a byte at a time. */
static uint32_t half(uint32_t crc)
{
    static const uint32_t TABLE[16] = {
        0x00000000, 0x1db71064, 0x3b6e20c8, 0x26d930ac, 0x76dc4190, 0x6b6b51f4, 0x4db26158, 0x5005713c,
        0xedb88320, 0xf00f9344, 0xd6d6a3e8, 0xcb61b38c, 0x9b64c2b0, 0x86d3d2d4, 0xa00ae278, 0xbdbdf21c,
    };
    return TABLE[crc % 16] ^ (crc / 16);
}

static uint32_t crc32(const uint8_t *bytes, size_t length)
{
    uint32_t crc = UINT32_MAX;
    for (size_t i = 0; i < length; i++)
        crc = half(half(crc ^ bytes[i]));
    return crc ^ UINT32_MAX;
}

void show_bytes(const uint8_t *bytes, size_t length)
{
    putchar(' ');
    if (length == 0)
        putchar('-');
    for (size_t i = 0; i < length; i++)
        printf("%02x", bytes[i]);
}

static const char *comma(unsigned i)
{
    return i == 0 ? "" : ",";
}

void show_state(const liftlog_state *s, const uint8_t *image, size_t length)
{
    /* A malformed state may claim more entries than there are. */
    unsigned listed = s->n < 64 ? s->n : 64;
    printf(" |");
#define SHOW_FIELD(field, ...) printf(" %" PRIu64, (uint64_t)s->field);
    FIELDS(SHOW_FIELD)
#define SHOW_ARRAY(field, type, offset, name, ...)               \
    printf(" %s=", name);                                        \
    for (unsigned i = 0; i < listed; i++)                        \
        printf("%s%" PRIu64, comma(i), (uint64_t)s->field[i]);
    ARRAYS(SHOW_ARRAY)
    printf(" image=%zu:%08" PRIx32 "\n", length, crc32(image, length));
}
