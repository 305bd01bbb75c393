/* CSI bins in C, behind the tests of 17 and 18: htslib's hts_reg2bin, from its own header where that is installed, and else the CSI specification's rule, written here; and the list
 * of bins by that rule. tests/bench takes their time; as a program (-DPROGRAM) it answers the lines of csi_reg2bin, and `--whose` says whose bins they are. */
#include "cigar.h"

#if __has_include(<htslib/hts.h>)
#include <htslib/hts.h>
#define WHOSE "htslib, by its installed header"
#else
#define WHOSE "the CSI specification's rule, written for this test: htslib's header is not installed"
static inline int hts_reg2bin(int64_t beg, int64_t end, int min_shift, int depth)
{
    int64_t last = end - 1;
    int first = ((1 << 3 * depth) - 1) / 7;
    for (int level = depth, shift = min_shift; level > 0; level--, shift += 3) {
        if (beg >> shift == last >> shift)
            return first + (int)(beg >> shift);
        first -= 1 << 3 * (level - 1);
    }
    return 0;
}
#endif

static uint32_t refusal(int64_t beg, int64_t end, uint32_t min_shift, uint32_t depth)
{
    if (min_shift < 10 || min_shift > 20 || depth < 1 || depth > 8)
        return 17;
    return beg < 0 || beg >= end || end > (int64_t)1 << (min_shift + 3 * depth) ? 18 : 0;
}

struct cigar_count htslib_reg2bin(int64_t beg, int64_t end, uint32_t min_shift, uint32_t depth)
{
    uint32_t why = refusal(beg, end, min_shift, depth);
    if (why)
        return (struct cigar_count){why, 0};
    return (struct cigar_count){0, (uint64_t)hts_reg2bin(beg, end, (int)min_shift, (int)depth)};
}

/* The room is enough. */
struct cigar_count specification_reg2bins(int64_t beg, int64_t end, uint32_t min_shift, uint32_t depth, uint32_t *out)
{
    uint32_t why = refusal(beg, end, min_shift, depth);
    if (why)
        return (struct cigar_count){why, 0};
    uint64_t n = 0;
    int s = (int)(min_shift + 3 * depth), t = 0;
    --end;
    for (int l = 0; l <= (int)depth; s -= 3, t += 1 << (3 * l), ++l)
        for (int64_t i = t + (beg >> s), last = t + (end >> s); i <= last; ++i)
            out[n++] = (uint32_t)i;
    return (struct cigar_count){0, n};
}

#ifdef PROGRAM
#include <inttypes.h>
#include <stdio.h>
#include <string.h>

int main(int count, char **words)
{
    int64_t beg, end;
    uint32_t min_shift, depth;
    if (count == 2 && !strcmp(words[1], "--whose"))
        return puts(WHOSE) < 0;
    while (scanf("csi_reg2bin %" SCNd64 " %" SCNd64 " %" SCNu32 " %" SCNu32 "\n", &beg, &end, &min_shift, &depth) == 4) {
        struct cigar_count a = htslib_reg2bin(beg, end, min_shift, depth);
        printf(a.refusal ? "refuse %" PRIu64 "\n" : "ok %" PRIu64 "\n", a.refusal ? a.refusal : a.value);
    }
    return 0;
}
#endif
