/* Times the proved CSI calls beside htslib's hts_reg2bin and the CSI specification's reg2bins, each behind the tests of 17 and 18 and with the same struct for an answer (tests/htslib.c,
 * compiled by itself, so that no side is inlined): Markdown on standard output. A time is the thread's; of each side the median of three, each the best of eight runs, the sides in turns. */
#include "cigar.h"
#include <stdio.h>
#include <stdlib.h>
#include <string.h>
#include <time.h>

struct cigar_count htslib_reg2bin(int64_t beg, int64_t end, uint32_t min_shift, uint32_t depth);
struct cigar_count specification_reg2bins(int64_t beg, int64_t end, uint32_t min_shift, uint32_t depth, uint32_t *out);

enum { INPUTS = 1 << 12, ROUNDS = 20, MOST = 19173961 };

static int64_t begs[INPUTS], ends[INPUTS];
static uint32_t min_shift, depth, theirs[MOST], own[MOST];
static uint64_t state = 88172645463325252u, sum[3];

static uint64_t below(uint64_t n)
{
    state ^= state << 13, state ^= state >> 7, state ^= state << 17;
    return state % n;
}

static double now(void)
{
    struct timespec t;
    clock_gettime(CLOCK_THREAD_CPUTIME_ID, &t);
    return (double)t.tv_sec * 1e9 + (double)t.tv_nsec;
}

/* Nanoseconds a call, or a list. */
static double one_bin(int side)
{
    struct cigar_count (*call)(int64_t, int64_t, uint32_t, uint32_t) = side ? cigar_csi_reg2bin : htslib_reg2bin;
    double start = now();
    for (int round = 0; round < ROUNDS; round++)
        for (int i = 0; i < INPUTS; i++)
            sum[side] += call(begs[i], ends[i], min_shift, depth).value;
    return (now() - start) / (ROUNDS * INPUTS);
}

static double list(int side)
{
    int64_t genome = (int64_t)1 << (min_shift + 3 * depth);
    double start = now();
    if (side == 0)
        sum[side] = specification_reg2bins(0, genome, min_shift, depth, theirs).value;
    else if (side == 1)
        sum[side] = cigar_csi_reg2bins(0, genome, min_shift, depth, own, MOST).value;
    else
        memcpy(own, theirs, sum[0] * sizeof own[0]);
    return now() - start;
}

static int order(const void *a, const void *b)
{
    return (*(const double *)a > *(const double *)b) - (*(const double *)a < *(const double *)b);
}

static void measure(double (*run)(int), int sides, double *medians)
{
    double best[3][3];
    for (int third = 0; third < 3; third++)
        for (int turn = 0; turn < 8; turn++)
            for (int side = 0; side < sides; side++) {
                double time = run(side);
                if (turn == 0 || time < best[side][third])
                    best[side][third] = time;
            }
    for (int side = 0; side < sides; side++) {
        qsort(best[side], 3, sizeof best[side][0], order);
        medians[side] = best[side][1];
    }
}

static void differ(int wrong)
{
    if (wrong) {
        puts("the two sides differ");
        exit(1);
    }
}

int main(void)
{
    double times[3];
    puts("| `csi_reg2bin` of | ns | `hts_reg2bin` behind the same tests | |\n|---|---|---|---|");
    const char *names[] = {"reads of about 125 bases", "of which 1 in 8 begins anywhere before", "any two places"};
    for (int kind = 0; kind < 3; kind++)
        for (int d = 5; d <= 8; d += 3) {
            min_shift = 14, depth = (uint32_t)d;
            for (int i = 0; i < INPUTS; i++) {
                begs[i] = (int64_t)below(((uint64_t)1 << (min_shift + 3 * depth)) - 1000);
                ends[i] = begs[i] + 100 + (int64_t)below(50);
                if (kind == 2 || (kind == 1 && below(8) == 0))
                    begs[i] = (int64_t)below((uint64_t)ends[i]);
            }
            measure(one_bin, 2, times);
            differ(sum[0] != sum[1]);
            printf("| %s, depth %d | %.2f | %.2f | %.2f |\n", names[kind], d, times[1], times[0], times[1] / times[0]);
        }
    measure(list, 3, times);
    differ(sum[0] != sum[1] || memcmp(own, theirs, sizeof own));
    printf("\n`csi_reg2bins` of a whole genome (14, 8), %d bins: %.1f ms; the CSI specification's C %.1f ms (%.2f), a copy of as many numbers %.1f ms (%.2f).\n", MOST, times[1] / 1e6, times[0] / 1e6,
           times[1] / times[0], times[2] / 1e6, times[1] / times[2]);
}
