/* work: what is measured: pieces of work that a side does, and the floor below them. */
#ifndef WORK_H
#define WORK_H

#include "bed.h"
#include "sides.h"

enum { READS = 256 };

/* A piece of work, on a side or, where that is NULL, as the floor. It returns 0, or a number that was given. */
struct job;
typedef int piece(const struct side *side, struct bed *log, const struct job *job);

struct job {
    const char *name;
    piece *work;
    enum filling filling;
    uint8_t s;
    uint8_t n;
    size_t p;             /* append: the payload's length */
    unsigned calls;       /* how many calls of one kind the piece has; a pair or a roll counts as one */
    uint32_t lsn;         /* head start, tail start */
    uint32_t lsns[READS]; /* read */
    uint32_t place;       /* tail start: the place of its LSN */
};

piece work_append, work_roll, work_head, work_tail, work_open, work_read, work_counts;

/* Sets the arguments that depend on the bed. */
void aim(struct job *job, const struct bed *bed);

#endif
