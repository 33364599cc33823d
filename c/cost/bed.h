/* bed: a log filled for a measurement. */
#ifndef BED_H
#define BED_H

#include "liftlog.h"

enum { MIDDLING = 256 }; /* the payload that beds are filled with */

/* How the write extent stands: with its one first record, or so full that no middling payload fits. */
enum filling { JUST_BEGUN, FULL };

struct bed {
    liftlog_state state;
    uint8_t *image;
    size_t length;
};

/* A log that runs, of n listed extents that are full but for the last. Free its image with free. */
struct bed made_bed(uint32_t e, uint8_t s, uint8_t n, enum filling filling);

#endif
