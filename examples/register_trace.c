/* The register engine step by step, to be laid beside the hardware's own trace. Before step n the
 * register is 2^n times the exponent. For each part: the register in 50 bits and as a number, the
 * bits of it that are looked at, the digit, and the scaled table entry in 51 bits and as a number.
 * The steps are made here; after each of them the register is held to the library's.
 *
 *     gcc -Iinclude examples/register_trace.c target/staticlib/libcontroller.a -o register_trace
 *     ./register_trace                                        0.51 + 0.29i by 10 steps
 *     ./register_trace 40                                     the same by 40
 *     ./register_trace 12 -140737488355328 105553116266496    -1/2 + 3/8 i by 12
 */
#include "bkm.h"
#include <inttypes.h>
#include <stdio.h>
#include <stdlib.h>

#define ONE 0x1p48 /* in units */
#define REGISTER_BITS 50
#define ENTRY_BITS 51

/* How a digit is read off: two bits before the point are looked at and so many behind it. Counted
 * in the last of them, it is -1 up to the low number and 1 from the high one on. */
static const struct {
    char name;
    int fraction, low, high;
} parts[2] = {{'x', 3, -5, 3}, {'y', 4, -13, 13}};

/* A signed number as so many bits hold it. */
static uint64_t low_bits(int64_t number, int bits) {
    return (uint64_t)number & ((UINT64_C(1) << bits) - 1);
}

static int looked_at(int64_t alpha, int p) {
    return (int)(low_bits(alpha, REGISTER_BITS) >> (REGISTER_BITS - 2 - parts[p].fraction));
}

static int digit(int64_t alpha, int p) {
    const int sign = 2 << parts[p].fraction, cut = (looked_at(alpha, p) ^ sign) - sign;
    return (cut >= parts[p].high) - (cut <= parts[p].low);
}

static void print_number(int64_t number, int bits) {
    printf("  %013" PRIx64 " %+.15f", low_bits(number, bits), (double)number / ONE);
}

static void print_looked_at(int64_t alpha, int p) {
    const int fraction = parts[p].fraction, seen = looked_at(alpha, p);
    printf("  ");
    for (int bit = fraction + 1; bit >= 0; bit--)
        printf(bit == fraction ? "%d." : "%d", seen >> bit & 1);
    printf("%*s", 6 - fraction, "");
}

/* Whether the register after step n is the library's: 2^(n+1) times the remainder. */
static int is_the_librarys(const int64_t *alpha, int64_t n, int64_t ex, int64_t ey) {
    uint8_t bytes[BKM_RECORD_BYTES];
    if (bkm_exp_register(n, ex, ey, 0, 0, bytes, sizeof bytes) != 0)
        return 0;
    const bkm_record record = bkm_read_record(bytes);
    const int64_t scale = INT64_C(2) << n;
    return alpha[0] == record.remainder_x * scale && alpha[1] == record.remainder_y * scale;
}

static int in_rectangle(int64_t ex, int64_t ey) {
    const int64_t left = INT64_C(233096465088512), right = INT64_C(241892558110720);
    const int64_t up = INT64_C(206708186021888);
    return -left <= ex && ex <= right && -up <= ey && ey <= up;
}

static int fail(const char *what) {
    fprintf(stderr, "register_trace: %s\n", what);
    return 1;
}

int main(int count, char **given) {
    int64_t numbers[3] = {10, INT64_C(143552238122434), INT64_C(81627743246090)};
    if (count == 3 || count > 4)
        return fail("nothing is given, or N, or N, ex and ey");
    for (int i = 1; i < count; i++) {
        char *end;
        numbers[i - 1] = strtoll(given[i], &end, 10);
        if (end == given[i] || *end != '\0')
            return fail("not a whole number");
    }
    const int64_t steps = numbers[0], ex = numbers[1], ey = numbers[2];
    if (steps < 1 || steps > 40)
        return fail("N is 1 to 40");
    if (!in_rectangle(ex, ey))
        return fail("not in the rectangle: outside it the reduction comes first");

    int64_t alpha[2] = {2 * ex, 2 * ey};
    printf(" n    register                          looked at  digit  scaled entry\n");
    for (int64_t n = 1; n <= steps; n++) {
        const int d[2] = {digit(alpha[0], 0), digit(alpha[1], 1)};
        for (int p = 0; p < 2; p++) {
            const int64_t scale = INT64_C(2) << n;
            const int64_t entry = scale * bkm_step_entry((size_t)n, d[0], d[1], (size_t)p);
            printf("%2" PRId64 " %c", n, parts[p].name);
            print_number(alpha[p], REGISTER_BITS);
            print_looked_at(alpha[p], p);
            printf("  %5d", d[p]);
            print_number(entry, ENTRY_BITS);
            printf("\n");
            alpha[p] = 2 * alpha[p] - entry;
        }
        if (!is_the_librarys(alpha, n, ex, ey))
            return fail("the library's register is another one");
    }
    for (int p = 0; p < 2; p++) {
        printf("%2" PRId64 " %c", steps + 1, parts[p].name);
        print_number(alpha[p], REGISTER_BITS);
        printf("\n");
    }
    const int64_t scale = INT64_C(2) << steps;
    printf("left over: %" PRId64 " and %" PRId64 " units\n", alpha[0] / scale, alpha[1] / scale);
    return 0;
}
