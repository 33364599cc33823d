/* bench: the same work by every side in turn, and the nanoseconds a call of each.
 *
 * A piece of work starts from the state of a bed, which is put back before it, on all sides and the floor alike; no work needs
 * its image put back. Pieces are repeated for a millisecond: that is a round. The sides take turns, and the best round of each
 * counts. The rounds of a job are spread over several passes, so that what else the machine does for a while does not fall on
 * one line. Before each pass the sides are compared: they must leave the same state and image. */
#define _POSIX_C_SOURCE 199309L
#include "same.h"
#include "work.h"

#include <math.h>
#include <stdio.h>
#include <stdlib.h>
#include <string.h>
#include <time.h>

enum { PASSES = 4, ROUNDS = 20, ROUND_NANOSECONDS = 1000000 };

/* The kinds of image: 64 KiB and 4 MiB, and the metadata. */
enum { E_SMALL = 32768, S_SMALL = 2, E_LARGE = 65536, S_LARGE = 64 };

/* The floor is measured behind the sides. */
enum { FLOOR = SIDES, MEASURED };

static struct job jobs[] = {
    {"append 4 bytes", work_append, JUST_BEGUN, S_SMALL, 1, .p = 4},
    {"append 32 bytes", work_append, JUST_BEGUN, S_SMALL, 1, .p = 32},
    {"append 256 bytes", work_append, JUST_BEGUN, S_SMALL, 1, .p = 256},
    {"append 1024 bytes", work_append, JUST_BEGUN, S_SMALL, 1, .p = 1024},
    {"append 4 bytes", work_append, JUST_BEGUN, S_LARGE, 1, .p = 4},
    {"append 32 bytes", work_append, JUST_BEGUN, S_LARGE, 1, .p = 32},
    {"append 256 bytes", work_append, JUST_BEGUN, S_LARGE, 1, .p = 256},
    {"append 1024 bytes", work_append, JUST_BEGUN, S_LARGE, 1, .p = 1024},
    {"append 4 bytes", work_append, JUST_BEGUN, S_LARGE, 63, .p = 4},
    {"append 32 bytes", work_append, JUST_BEGUN, S_LARGE, 63, .p = 32},
    {"append 256 bytes", work_append, JUST_BEGUN, S_LARGE, 63, .p = 256},
    {"append 1024 bytes", work_append, JUST_BEGUN, S_LARGE, 63, .p = 1024},
    {"roll begin + write + list", work_roll, FULL, S_SMALL, 1, .p = MIDDLING, .calls = 1},
    {"roll begin + write + list", work_roll, FULL, S_LARGE, 1, .p = MIDDLING, .calls = 1},
    {"roll begin + write + list", work_roll, FULL, S_LARGE, 63, .p = MIDDLING, .calls = 1},
    {"head start + finish", work_head, FULL, S_SMALL, 2, .calls = 1},
    {"head start + finish", work_head, FULL, S_LARGE, 1, .calls = 1},
    {"head start + finish", work_head, FULL, S_LARGE, 63, .calls = 1},
    {"tail start + finish", work_tail, FULL, S_SMALL, 2, .calls = 1},
    {"tail start + finish", work_tail, FULL, S_LARGE, 1, .calls = 1},
    {"tail start + finish", work_tail, FULL, S_LARGE, 63, .calls = 1},
    {"open 64 KiB", work_open, FULL, S_SMALL, 2, .calls = 1},
    {"open 4 MiB", work_open, FULL, S_LARGE, 64, .calls = 1},
    {"read in 64 KiB", work_read, FULL, S_SMALL, 2, .calls = READS},
    {"read in 4 MiB", work_read, FULL, S_LARGE, 64, .calls = READS},
    {"counts", work_counts, FULL, S_SMALL, 1, .calls = READS},
    {"counts", work_counts, FULL, S_LARGE, 1, .calls = READS},
    {"counts", work_counts, FULL, S_LARGE, 16, .calls = READS},
    {"counts", work_counts, FULL, S_LARGE, 32, .calls = READS},
    {"counts", work_counts, FULL, S_LARGE, 63, .calls = READS},
};

/* The last jobs are counts at S 64 from n 1 up: nearly only the test of a state, as it grows with n. */
enum { JOBS = sizeof jobs / sizeof jobs[0], COUNTS_FROM = JOBS - 4 };

/* ---- Measuring */

static double now(void)
{
    struct timespec t;
    clock_gettime(CLOCK_MONOTONIC, &t);
    return (double)t.tv_sec * 1e9 + (double)t.tv_nsec;
}

static void fail(const struct job *job, const char *what)
{
    fprintf(stderr, "bench: %s, S %u, n %u: %s\n", job->name, job->s, job->n, what);
    exit(1);
}

/* The nanoseconds that so many pieces take. */
static double timed(const struct side *side, struct bed *log, const liftlog_state *start, const struct job *job, unsigned pieces)
{
    int number = 0;
    double from = now();
    for (unsigned i = 0; i < pieces; i++) {
        log->state = *start;
        __asm__ volatile("" ::"r"(log->image), "r"(log) : "memory");
        number |= job->work(side, log, job);
    }
    double taken = now() - from;
    if (number != LIFTLOG_DONE)
        fail(job, "a call is refused");
    return taken;
}

static struct bed copy_of(const struct bed *bed)
{
    struct bed copy = *bed;
    copy.image = malloc(bed->length);
    memcpy(copy.image, bed->image, bed->length);
    return copy;
}

static bool same(const struct bed *a, const struct bed *b)
{
    return same_state(&a->state, &b->state) && memcmp(a->image, b->image, a->length) == 0;
}

/* A piece by each side from the bed: all must leave the same state and image. */
static void compare(const struct bed *bed, const struct job *job)
{
    struct bed left[SIDES];

    for (int i = 0; i < SIDES; i++) {
        left[i] = copy_of(bed);
        timed(sides[i], &left[i], &bed->state, job, 1);
        if (!same(&left[0], &left[i]))
            fail(job, "the sides differ");
    }
    for (int i = 0; i < SIDES; i++)
        free(left[i].image);
}

/* A round of one side, in the one image where all sides work: where an image lies in memory tells in the time. */
static double one_round(const struct side *side, const struct bed *bed, struct bed *work, const struct job *job)
{
    memcpy(work->image, bed->image, bed->length);
    unsigned pieces = 1 + (unsigned)(ROUND_NANOSECONDS / (1 + timed(side, work, &bed->state, job, 1)));
    return timed(side, work, &bed->state, job, pieces) / pieces / job->calls;
}

/* A pass: lowers the best round of each side and of the floor, in nanoseconds a call. */
static void measure(struct job *job, double best[MEASURED])
{
    struct bed bed = made_bed(job->s == S_SMALL ? E_SMALL : E_LARGE, job->s, job->n, job->filling);
    struct bed work = copy_of(&bed);

    aim(job, &bed);
    compare(&bed, job);
    for (int round = 0; round < ROUNDS; round++)
        for (int turn = 0; turn < MEASURED; turn++) {
            int i = (round + turn) % MEASURED;
            double each = one_round(i == FLOOR ? NULL : sides[i], &bed, &work, job);
            best[i] = each < best[i] ? each : best[i];
        }
    free(work.image);
    free(bed.image);
}

/* ---- Printing */

static void print_header(void)
{
    printf("Nanoseconds a call, the best of %d rounds. S %d: E %d, S %d: E %d; filled with payloads of %d bytes.\n",
           PASSES * ROUNDS, S_SMALL, E_SMALL, S_LARGE, E_LARGE, MIDDLING);
    printf("by value: the twin behind the proved library's interface. floor: the same bytes looked at or moved, no test.\n");
    printf("%-37s %12s %12s %12s %12s %16s %12s\n", "", "proved", "twin", "proved/twin", "by value", "proved/by value", "floor");
}

static void print(const struct job *job, const double best[MEASURED])
{
    char where[32];

    snprintf(where, sizeof where, "S %u, n %u", job->s, job->n);
    printf("%-26s %-10s %9.0f ns %9.0f ns %12.2f %9.0f ns %16.2f %9.0f ns\n", job->name, where, best[PROVED], best[TWIN],
           best[PROVED] / best[TWIN], best[BY_VALUE], best[PROVED] / best[BY_VALUE], best[FLOOR]);
}

/* What counts takes more than at n 1, where there is no pair of slots. */
static void print_growth(double best[JOBS][MEASURED])
{
    const double *base = best[COUNTS_FROM];

    printf("\nThe test of distinct slots compares n (n - 1) / 2 pairs; the twin's is one pass over n.\n");
    printf("What counts takes at S %d above what it takes at n 1:\n", S_LARGE);
    for (int i = COUNTS_FROM + 1; i < JOBS; i++) {
        unsigned n = jobs[i].n;
        unsigned pairs = n * (n - 1) / 2;
        double proved = best[i][PROVED] - base[PROVED];
        printf("n %2u, %4u pairs   proved %6.0f ns, %4.2f ns a pair   twin %6.0f ns   by value %6.0f ns\n", n, pairs, proved,
               proved / pairs, best[i][TWIN] - base[TWIN], best[i][BY_VALUE] - base[BY_VALUE]);
    }
}

int main(void)
{
    static double best[JOBS][MEASURED];

    for (int i = 0; i < JOBS; i++)
        for (int j = 0; j < MEASURED; j++)
            best[i][j] = HUGE_VAL;
    for (int pass = 0; pass < PASSES; pass++)
        for (int i = 0; i < JOBS; i++)
            measure(&jobs[i], best[i]);
    print_header();
    for (int i = 0; i < JOBS; i++)
        print(&jobs[i], best[i]);
    print_growth(best);
    return 0;
}
