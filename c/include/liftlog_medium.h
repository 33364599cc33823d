/* liftlog_medium: carries a store from the image in memory to the device that keeps it, in the order that the log asks of its medium.
 *
 * A device is three ways to take bytes. Each returns 0 when the device has them for good, and any other number when it failed. What
 * a power cut leaves of one piece is the device's part: a piece lies in one block, and the block holds the old bytes or the new. */
#ifndef LIFTLOG_MEDIUM_H
#define LIFTLOG_MEDIUM_H

#include "liftlog.h"

#ifdef __cplusplus
extern "C" {
#endif

typedef struct liftlog_device {
    void *context;  /* handed to each call */
    size_t block;   /* the bytes that the device takes whole or not at all, as a disk its sector: no piece crosses a border of blocks */
    int (*write)(void *context, size_t place, const uint8_t *bytes, size_t count);    /* these bytes */
    int (*zero)(void *context, size_t place, size_t count);                           /* zeros */
    int (*replace)(void *context, size_t place, const uint8_t *bytes, size_t count);  /* these bytes, whole or not at all */
} liftlog_device;

/* Carries an answer's store, whose bytes stand in the image: a record front to back in pieces to write, a wipe from its last piece back
 * to its first to zero, metadata in one to replace. A piece that fails ends the carrying, and its number is handed back; the log
 * then goes on as after a power cut, with open on what the device has. 0: all is there. A kind that is no store's is -1, and a block
 * of 0 bytes is one of 1. */
int liftlog_carry(const liftlog_device *device, const uint8_t *image, liftlog_store store);

#ifdef __cplusplus
}
#endif

#endif
