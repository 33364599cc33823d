/* A device whose power goes: what it holds of a store that is carried to it and cut after k bytes. */
#ifndef CUT_H
#define CUT_H

#include "liftlog.h"

/* Carries a store from the image to kept, the device's bytes, of which k arrive; of metadata all or none. */
void carry_cut(uint8_t *kept, const uint8_t *image, liftlog_store store, uint64_t k);

#endif
