/* forge: states and images made up or damaged at random. */
#ifndef FORGE_H
#define FORGE_H

#include "lists.h"

/* A state of the given E and S, of any mode, that is well formed but has no image behind it. */
liftlog_state forged_state(uint32_t e, uint8_t s);

/* One field, entry or byte gets another value: often one at the edge of what is allowed. */
void damage_state(liftlog_state *state);

/* A byte gets another value, the listing or the head is another, or an extent starts elsewhere. The image is of the state's E and
 * S. */
void damage_image(uint8_t *image, size_t length, const liftlog_state *state);

#endif
