/* stack: the bytes of stack that a call takes, by every side. Each call runs on a stack of its own, painted before it; how far
 * down the paint is gone afterwards is what it took, less what an empty call takes. The caller's part is in it: for calls by
 * value the state handed over and the answer. */
#include "bed.h"
#include "sides.h"

#include <stdio.h>
#include <stdlib.h>
#include <string.h>
#include <ucontext.h>

enum { AREA = 65536, PAINT = 0x5c };

static uint8_t area[AREA] __attribute__((aligned(64)));
static uint8_t payload[MIDDLING];

/* The call that runs on the painted stack, and what it answers. */
static struct {
    const struct side *side;
    enum call call;
    struct bed *log;
    struct arguments with;
    struct outcome outcome;
} task;

static void run_task(void)
{
    task.outcome = make_call(task.side, task.call, &task.log->state, task.log->image, task.log->length, &task.with);
}

/* How many bytes at the top of the area have lost their paint. */
static size_t touched(void)
{
    size_t i = 0;
    while (i < AREA && area[i] == PAINT)
        i++;
    return AREA - i;
}

static size_t measured(const struct side *side, enum call call, struct bed *log, uint32_t lsn)
{
    ucontext_t here, there;

    task.side = side;
    task.call = call;
    task.log = log;
    task.with = (struct arguments){log->state.e, log->state.s, lsn, payload, MIDDLING};
    memset(area, PAINT, AREA);
    getcontext(&there);
    there.uc_stack.ss_sp = area;
    there.uc_stack.ss_size = AREA;
    there.uc_link = &here;
    makecontext(&there, run_task, 0);
    swapcontext(&here, &there);
    return touched();
}

/* Every call once, in an order in which each is done. The LSN is that of the second extent's second record. */
static void measure_life(const struct side *side, size_t taken[CALL_COUNT])
{
    static const enum call life[CALL_COUNT] = {ROLL_BEGIN, ROLL_WRITE, ROLL_LIST,  APPEND,      READ,  HEAD_START, HEAD_FINISH, COUNTS,
                                               TAIL_START, TAIL_FINISH, CLOSE, OPEN, WIPE, MARK, CREATE};
    struct bed log = made_bed(4096, 64, 1, FULL);
    uint32_t lsn = log.state.tail + 1;
    size_t empty = measured(side, CALL_COUNT, &log, lsn);

    for (int i = 0; i < CALL_COUNT; i++) {
        uint32_t aim = life[i] == HEAD_START ? lsn - 1 : lsn;
        taken[life[i]] = measured(side, life[i], &log, aim) - empty;
        if (task.outcome.number != LIFTLOG_DONE)
            printf("stack: %s by the %s side gives %d\n", call_names[life[i]], side->title, task.outcome.number);
    }
    free(log.image);
}

int main(void)
{
    size_t taken[SIDES][CALL_COUNT];

    for (int i = 0; i < SIDES; i++)
        measure_life(sides[i], taken[i]);
    printf("Bytes of stack a call, the caller's state and answer included.\n");
    for (int i = 0; i < CALL_COUNT; i++)
        printf("%-12s proved %6zu   twin %6zu   by value %6zu\n", call_names[i], taken[PROVED][i], taken[TWIN][i],
               taken[BY_VALUE][i]);
    return 0;
}
