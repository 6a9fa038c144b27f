/* An outline and its logarithm for a plotting package: a script for gnuplot with the points in it,
 * the parts of each logarithm in doubles.
 *
 *     gcc -Iinclude examples/plot_outline.c target/staticlib/libcontroller.a -o plot_outline
 *     ./plot_outline | gnuplot -p
 */
#include "bkm.h"
#include <inttypes.h>
#include <stdio.h>

#define ONE 0x1p48 /* in units */
#define STEPS 40
#define CUTS 10 /* points to an edge */
#define LN_2 0.6931471805599453
#define QUARTER 90.0 /* degrees to a quarter turn */
#define RADIAN 57.29577951308232

/* Parts in ones, from the end on the left downwards: a slim tip to the right, the crease below. */
static const double corners[][2] = {
    {-0.95, 0.00}, {-0.85, -0.24}, {-0.45, -0.42}, {-0.15, -0.38}, {0.00, -0.29}, {0.35, -0.36}, {0.70, -0.22},
    {0.95, 0.00},  {0.70, 0.22},   {0.35, 0.36},   {0.00, 0.42},   {-0.45, 0.42}, {-0.85, 0.24},
};

static const char *const head = "set multiplot layout 1,2\n"
                                "set key off\n"
                                "set grid\n"
                                "$outline << END\n"
                                "# x y angle ln(length)\n";

static const char *const tail = "END\n"
                                "set title 'A kernel outline'\n"
                                "set size ratio -1\n"
                                "set xlabel 'x'\n"
                                "set ylabel 'y'\n"
                                "plot $outline using 1:2 with filledcurves closed fill transparent solid 0.2 border lw 2\n"
                                "set title 'Its logarithm'\n"
                                "set size noratio\n"
                                "set xlabel 'angle, degrees'\n"
                                "set ylabel 'logarithm of the length'\n"
                                "set xrange [-180:180]\n"
                                "set xtics 90\n"
                                "plot $outline using 3:4 with points pt 7 ps 0.4\n"
                                "unset multiplot\n";

/* One point of the script: LOG's parts come as doubles, k and q from its record. */
static int plot(int64_t x, int64_t y) {
    uint8_t bytes[BKM_RECORD_BYTES];
    bkm_log(STEPS, x, y, bytes, sizeof bytes);
    bkm_record record = bkm_read_record(bytes);
    bkm_doubles_answer log = bkm_log_doubles(STEPS, x, y);
    if (log.refusal != 0) {
        fprintf(stderr, "refused with %" PRId64 "\n", log.refusal);
        return 1;
    }
    bkm_units_answer back = bkm_read_doubles(log.parts);
    if (back.refusal != 0 || back.x != record.x || back.y != record.y) {
        fprintf(stderr, "the doubles are not the record's parts\n");
        return 1;
    }
    double angle = log.parts.y * RADIAN + (double)record.q * QUARTER;
    double length = log.parts.x + (double)record.k * LN_2;
    printf("%.6f %.6f %.17g %.17g\n", (double)x / ONE, (double)y / ONE, angle, length);
    return 0;
}

int main(void) {
    const size_t count = sizeof corners / sizeof *corners;
    fputs(head, stdout);
    /* The last point is the first again. */
    for (size_t i = 0; i <= count * CUTS; i++) {
        const double *from = corners[i / CUTS % count], *to = corners[(i / CUTS + 1) % count];
        double share = (double)(i % CUTS) / CUTS;
        int64_t x = (int64_t)((from[0] + share * (to[0] - from[0])) * ONE);
        int64_t y = (int64_t)((from[1] + share * (to[1] - from[1])) * ONE);
        if (plot(x, y) != 0)
            return 1;
    }
    fputs(tail, stdout);
    return 0;
}
