/* The end of an answer, in logrun's form. */
#ifndef SHOW_H
#define SHOW_H

#include "liftlog.h"

/* A space and the bytes in hexadecimal, `-` for none. */
void show_bytes(const uint8_t *bytes, size_t length);

/* The state, the listed slots and starts, the image's length and CRC-32, and the line's end. */
void show_state(const liftlog_state *state, const uint8_t *image, size_t length);

#endif
