/* How far an answer had come, and what a receiver can do with that: one kernel by few steps and
 * by many, how far its answer is off, and how far it is off once the remainder is multiplied back
 * in, each beside the most that it can be. The C library's long doubles stand for the truth.
 *
 *     gcc -Iinclude examples/multiply_back.c target/staticlib/libcontroller.a -lm -o multiply_back
 */
#include "bkm.h"
#include <complex.h>
#include <inttypes.h>
#include <math.h>
#include <stdio.h>

#define ONE 281474976710656.0L /* units to one */

static long double complex pair(int64_t x, int64_t y) {
    return x + y * (long double complex)I;
}

/* The larger part in size. */
static long double larger(long double complex z) {
    return fmaxl(fabsl(creall(z)), fabsl(cimagl(z)));
}

int main(void) {
    const int64_t ex = INT64_C(143552238122434), ey = INT64_C(81627743246090), sx = INT64_C(1) << 48, sy = 0;
    const long double complex start = pair(sx, sy), exact = start * cexpl(pair(ex, ey) / ONE);
    const long double most = larger(start) / ONE;
    printf(" N    units off by          at most | times e^remainder  at most\n");
    for (int64_t n = 5; n <= 40; n += 5) {
        uint8_t bytes[BKM_RECORD_BYTES];
        int64_t refusal = bkm_exp(n, ex, ey, sx, sy, bytes, sizeof bytes);
        if (refusal != 0) {
            fprintf(stderr, "refused with %" PRId64 "\n", refusal);
            return 1;
        }
        /* Inside the rectangle k is 0. */
        const bkm_record record = bkm_read_record(bytes);
        const long double complex answer = pair(record.x, record.y);
        const long double complex left = pair(record.remainder_x, record.remainder_y) / ONE;
        printf("%2" PRId64 "%16.0Lf %16" PRId64 " |%18.0Lf %8.0Lf\n", n, larger(answer - exact), record.error_bound,
               larger(answer * cexpl(left) - exact), ceill((12 * n + 51) * most + 2 * n + 3));
    }
    return 0;
}
