/* live: prints the live records of an image on standard input, a line for each: LSN, a space, payload. Recovery is done on the copy
 * that was read; the image stays as it is. Refused, it prints the call and its number on standard error, and ends with status 1. */
#include <inttypes.h>
#include <stdio.h>
#include <stdlib.h>

#include "liftlog.h"

static uint8_t image[LIFTLOG_IMAGE(LIFTLOG_E_MOST, LIFTLOG_S_MOST) + 1];

static void expect_done(uint8_t number, const char *call)
{
    if (number == LIFTLOG_DONE)
        return;
    fprintf(stderr, "live: %s is refused with %u\n", call, number);
    exit(EXIT_FAILURE);
}

/* read is admitted only behind recovery. */
static liftlog_state recovered(size_t length)
{
    liftlog_answer a = liftlog_open(image, length);
    expect_done(a.number, "open");
    a = liftlog_wipe(a.state, image, length);
    expect_done(a.number, "wipe");
    a = liftlog_mark(a.state, image, length);
    expect_done(a.number, "mark");
    return a.state;
}

int main(void)
{
    size_t length = fread(image, 1, sizeof image, stdin);
    liftlog_state state = recovered(length);
    for (uint32_t lsn = state.head; lsn < state.tail; lsn++) {
        liftlog_reading r = liftlog_read(state, image, length, lsn);
        expect_done(r.number, "read");
        printf("%" PRIu32 " ", lsn);
        fwrite(image + r.place, 1, r.length, stdout);
        putchar('\n');
    }
    return fflush(stdout) == 0 ? EXIT_SUCCESS : EXIT_FAILURE;
}
