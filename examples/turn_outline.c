/* Turns the outline of a kernel by half a radian and prints each point with its bound. For so
 * small an exponent k is 0.
 *
 *     gcc -Iinclude examples/turn_outline.c target/staticlib/libcontroller.a -o turn_outline
 */
#include "bkm.h"
#include <inttypes.h>
#include <stddef.h>
#include <stdio.h>

#define ONE 0x1p48 /* in units */
#define STEPS 40

/* Parts in ones: a slim tip to the right, the crease below. */
static const double outline[][2] = {
    {0.95, 0.00},  {0.70, 0.22},   {0.35, 0.36},   {0.00, 0.42},   {-0.45, 0.42}, {-0.85, 0.24},
    {-0.95, 0.00}, {-0.85, -0.24}, {-0.45, -0.42}, {-0.15, -0.38}, {0.00, -0.29}, {0.35, -0.36},
};

int main(void) {
    for (size_t i = 0; i < sizeof outline / sizeof *outline; i++) {
        int64_t x = (int64_t)(outline[i][0] * ONE), y = (int64_t)(outline[i][1] * ONE);
        uint8_t bytes[BKM_RECORD_BYTES];
        int64_t refusal = bkm_exp(STEPS, 0, (int64_t)(0.5 * ONE), x, y, bytes, sizeof bytes);
        if (refusal != 0) {
            fprintf(stderr, "point %zu: refused with %" PRId64 "\n", i, refusal);
            return 1;
        }
        bkm_record turned = bkm_read_record(bytes);
        printf("%+.13f %+.13f, each to %.1e\n", (double)turned.x / ONE, (double)turned.y / ONE,
               (double)turned.error_bound / ONE);
    }
    return 0;
}
