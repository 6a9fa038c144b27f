/* A C client of include/bkm.h: calls as the sorter's controller makes them, byte by byte.
 *
 *     gcc -O2 -Wall -Iinclude tests/client.c target/staticlib/libcontroller.a -lm -o client && ./client
 */
#include "bkm.h"

#include <inttypes.h>
#include <math.h>
#include <stdio.h>
#include <string.h>

static int passed, failed;

static void check(const char *what, int good)
{
    if (good) {
        passed++;
    } else {
        failed++;
        printf("failed: %s\n", what);
    }
}

/* The record holds these eight numbers; read number by number and as a struct. */
static int holds(const uint8_t *out, const int64_t wanted[8])
{
    const bkm_record r = bkm_read_record(out);
    const int64_t read[8] = {r.refusal, r.x, r.y, r.k, r.q, r.error_bound, r.remainder_x, r.remainder_y};
    for (int i = 0; i < 8; i++)
        if (bkm_number(out, i) != wanted[i] || read[i] != wanted[i])
            return 0;
    return 1;
}

/* All behind the number is 0. */
static int refused(const uint8_t *out, int64_t refusal)
{
    return holds(out, (const int64_t[8]){refusal});
}

/* EXP by the register hands back this number and writes the same bytes as EXP. */
static int same_by_register(int64_t n, int64_t ex, int64_t ey, int64_t sx, int64_t sy, int64_t refusal)
{
    uint8_t out[80], by_register[80];
    memset(out, 0xa5, sizeof out);
    memset(by_register, 0xa5, sizeof by_register);
    return bkm_exp(n, ex, ey, sx, sy, out, sizeof out) == refusal &&
           bkm_exp_register(n, ex, ey, sx, sy, by_register, sizeof by_register) == refusal &&
           memcmp(out, by_register, sizeof out) == 0;
}

static int unread(bkm_units_answer read)
{
    return read.refusal == 9 && read.x == 0 && read.y == 0;
}

/* What stops the merge of a and b, and the lines that it is due to. */
static int stops(const uint8_t *a, size_t length, const char *b, int64_t refusal, size_t first, size_t second)
{
    const bkm_stop stop = bkm_merge_stopped_at(a, length, (const uint8_t *)b, strlen(b));
    return stop.refusal == refusal && stop.first == first && stop.second == second;
}

static int all(const uint8_t *bytes, size_t length, uint8_t value)
{
    for (size_t i = 0; i < length; i++)
        if (bytes[i] != value)
            return 0;
    return 1;
}

int main(void)
{
    const int64_t one = INT64_C(1) << 48, eight = 8 * one, most = INT64_C(1) << 58;
    uint8_t out[80];

    memset(out, 0xa5, sizeof out);
    check("EXP of nought hands back 0", bkm_exp(40, 0, 0, one, 0, out, sizeof out) == 0);
    check("and the start, with the column 2128 and nothing left over", holds(out, (const int64_t[8]){0, one, 0, 0, 0, 2128, 0, 0}));
    check("bytes past the 64 keep their values", all(out + 64, 16, 0xa5));

    check("N = 0 is refused before the exponent", bkm_exp(0, INT64_MAX, 0, one, 0, out, BKM_RECORD_BYTES) == 1 && refused(out, 1));
    check("an exponent past 55/64 is taken: k is 1", bkm_exp(40, INT64_C(241892558110721), 0, one, 0, out, BKM_RECORD_BYTES) == 0 && bkm_read_record(out).k == 1);
    check("an exponent of 8 - 8i", bkm_exp(40, eight, -eight, one, 0, out, BKM_RECORD_BYTES) == 0 && holds(out, (const int64_t[8]){0, -INT64_C(29805663453324), -INT64_C(202669911213431), 12, 0, 2128, -96, 119}));
    check("p is made with Q: at 4.5 of it, less half a unit, it is 4, and M is one",
          bkm_exp(40, 0, INT64_C(994814683879000), one, one, out, BKM_RECORD_BYTES) == 0 && bkm_read_record(out).error_bound == 2128);
    check("half a unit past that it is 5, and M is two",
          bkm_exp(40, 0, INT64_C(994814683879001), one, one, out, BKM_RECORD_BYTES) == 0 && bkm_read_record(out).error_bound == 4176);
    check("an exponent past 8", bkm_exp(40, eight + 1, 0, one, 0, out, BKM_RECORD_BYTES) == 2 && refused(out, 2));
    check("and past -8", bkm_exp(40, 0, -eight - 1, one, 0, out, BKM_RECORD_BYTES) == 2 && refused(out, 2));
    check("a start of -2^63", bkm_exp(40, 0, 0, INT64_MIN, 0, out, BKM_RECORD_BYTES) == 3 && refused(out, 3));
    check("a start of 2^58 is taken", bkm_exp(1, 0, 0, most, -most, out, BKM_RECORD_BYTES) == 0);

    check("EXP by the register of 0.51 + 0.29i: the same bytes",
          same_by_register(40, INT64_C(143552238122434), INT64_C(81627743246090), one, 0, 0));
    check("and of 8 - 8i, by one step and by all",
          same_by_register(1, eight, -eight, most, -most, 0) && same_by_register(40, eight, -eight, one, 0, 0));
    check("and the same refusals",
          same_by_register(41, INT64_MAX, 0, INT64_MIN, 0, 1) && same_by_register(40, eight + 1, 0, INT64_MIN, 0, 2) &&
              same_by_register(40, 0, -eight, 0, most + 1, 3));
    bkm_exp_register(1, -one / 4 - 1, -3 * one / 8, one, 0, out, BKM_RECORD_BYTES);
    check("a unit below -1/4, and at -3/8: the first digit is -1", bkm_read_record(out).x == one / 2 && bkm_read_record(out).y == 0);

    check("LOG of one: k is 1 and q is 0", bkm_log(40, one, 0, out, BKM_RECORD_BYTES) == 0 && bkm_read_record(out).k == 1 && bkm_read_record(out).q == 0);
    check("with N = 3 it comes to (1080 - 63i)/1024", bkm_log(3, one, 0, out, BKM_RECORD_BYTES) == 0 && bkm_read_record(out).remainder_x == 56 * (one >> 10) && bkm_read_record(out).remainder_y == -63 * (one >> 10));
    check("LOG of (5, -5): q is -1", bkm_log(40, 5, -5, out, BKM_RECORD_BYTES) == 0 && bkm_read_record(out).q == -1);
    check("LOG of (-1, 0), straight to the left: q is 2", bkm_log(40, -1, 0, out, BKM_RECORD_BYTES) == 0 && bkm_read_record(out).q == 2);
    check("LOG of (-5, 1): q is 2", bkm_log(40, -5, 1, out, BKM_RECORD_BYTES) == 0 && bkm_read_record(out).q == 2);
    check("LOG of (-5, -1): q is -2", bkm_log(40, -5, -1, out, BKM_RECORD_BYTES) == 0 && bkm_read_record(out).q == -2);
    check("LOG of zero", bkm_log(40, 0, 0, out, BKM_RECORD_BYTES) == 4 && refused(out, 4));
    check("LOG with N = 2", bkm_log(2, one, 0, out, BKM_RECORD_BYTES) == 1 && refused(out, 1));

    memset(out, 0x5a, sizeof out);
    check("63 bytes are refused with 6", bkm_exp(0, 0, 0, 0, 0, out, 63) == 6 && bkm_exp_register(0, 0, 0, 0, 0, out, 63) == 6 && bkm_log(0, 0, 0, out, 63) == 6);
    check("and so is no buffer at all",
          bkm_exp(40, 0, 0, one, 0, NULL, 0) == BKM_REFUSED_ROOM && bkm_exp_register(40, 0, 0, one, 0, NULL, 0) == BKM_REFUSED_ROOM &&
              bkm_log(40, one, 0, NULL, 0) == BKM_REFUSED_ROOM);
    check("and nothing is written", all(out, sizeof out, 0x5a));

    const char *line = "1\tEXP\t40\t0\t0\t281474976710656\t0", *answer = "1\tEXP\t40\t281474976710656\t0\t0\t0\t0\t2128\n";
    uint8_t text[130];
    memset(text, 0xa5, sizeof text);
    size_t length = bkm_line((const uint8_t *)line, strlen(line), text, sizeof text);
    check("a line has its answer", length == strlen(answer) && memcmp(text, answer, length) == 0);
    check("and the bytes behind it stay", all(text + length, sizeof text - length, 0xa5));
    check("and the same one again: numbers rise on a sheet, and the call knows of none",
          bkm_line((const uint8_t *)line, strlen(line), text, sizeof text) == length && memcmp(text, answer, length) == 0);
    check("an empty line is malformed", bkm_line((const uint8_t *)line, 0, text, sizeof text) == 8 && memcmp(text, "0\tREF\t5\n", 8) == 0);
    check("and so is one that stands nowhere", bkm_line(NULL, 0, text, sizeof text) == 8 && memcmp(text, "0\tREF\t5\n", 8) == 0);
    memset(text, 0x5a, sizeof text);
    check("127 bytes are too few for a line", bkm_line((const uint8_t *)line, strlen(line), text, BKM_ANSWER_ROOM - 1) == 0);
    check("and nothing is written", all(text, sizeof text, 0x5a));
    check("nor with no buffer at all", bkm_line((const uint8_t *)line, strlen(line), NULL, 0) == 0);

    const char *first = "1\tLOG\t3\t1\t0\n3\tLOG\t3\t1\t0", *second = "2\tLOG\t3\t0\t1\n3\tLOG\t3\t1\t0\n";
    const char *both = "1\tLOG\t3\t1\t0\n2\tLOG\t3\t0\t1\n3\tLOG\t3\t1\t0\n";
    const size_t n1 = strlen(first), n2 = strlen(second), n = strlen(both);
    const uint8_t *a = (const uint8_t *)first, *b = (const uint8_t *)second;
    memset(text, 0xa5, sizeof text);
    check("two sheets are merged, equal lines once", bkm_merge(a, n1, b, n2, text, n1 + n2 + 2) == (int64_t)n && memcmp(text, both, n) == 0);
    check("and the bytes behind them stay", all(text + n, sizeof text - n, 0xa5));
    memset(text, 0x5a, sizeof text);
    check("room for one newline is too little", bkm_merge(a, n1, b, n2, text, n1 + n2 + 1) == -6);
    check("two differing lines under one number", bkm_merge(a, n1, (const uint8_t *)"3\tLOG\t4\t1\t0", 11, text, sizeof text) == -8);
    check("a sheet behind itself, or cut", bkm_merge((const uint8_t *)both + 12, n - 12, b, n2 - 2, text, sizeof text) == -5);
    check("and no refusal writes", all(text, sizeof text, 0x5a));
    check("two empty sheets, which stand nowhere, are merged into none", bkm_merge(NULL, 0, NULL, 0, text, 2) == 0 && bkm_merge(NULL, 0, NULL, 0, NULL, 0) == -6);
    check("and a sheet with itself is that sheet", bkm_merge((const uint8_t *)both, n, (const uint8_t *)both, n, text, sizeof text) == (int64_t)n && memcmp(text, both, n) == 0);
    check("the clash is due to line 2 of the one and line 1 of the other", stops(a, n1, "3\tLOG\t4\t1\t0", BKM_REFUSED_CLASH, 2, 1));
    check("a malformed line to its sheet alone", stops(a, n1, "4\tLOG\t4\t1\t0\n\n", BKM_REFUSED_LINE, 0, 2));
    check("a number that falls likewise", stops(a, n1, "2\tLOG\t4\t1\t0\n1\tLOG\t4\t1\t0\n", BKM_REFUSED_SERIAL, 0, 2));
    check("two malformed lines at the top to both sheets", stops((const uint8_t *)"x", 1, "\n", BKM_REFUSED_LINE, 1, 1));
    check("and nothing to none", stops(a, n1, second, 0, 0, 0) && stops(NULL, 0, "", 0, 0, 0));
    check("the entry of n = 1, d = -1", bkm_step_entry(1, -1, 0, 0) == -INT64_C(195103586505167) && bkm_step_entry(1, -1, 0, 1) == 0);

    const bkm_doubles zeros = {0.0, 0.0};
    bkm_doubles_answer given = bkm_log_doubles(40, one, 0);
    bkm_units_answer back = bkm_read_doubles(given.parts);
    bkm_log(40, one, 0, out, BKM_RECORD_BYTES);
    check("LOG of one in doubles: its parts over 2^48",
          given.refusal == 0 && given.parts.x == ldexp((double)bkm_read_record(out).x, -48) && given.parts.y == ldexp((double)bkm_read_record(out).y, -48));
    check("and read back", back.refusal == 0 && back.x == bkm_read_record(out).x && back.y == bkm_read_record(out).y);
    given = bkm_log_doubles(40, 0, 0);
    check("LOG of zero in doubles: its number and plus zero twice", given.refusal == 4 && memcmp(&given.parts, &zeros, sizeof zeros) == 0);
    check("N and the point are refused in their order", bkm_log_doubles(2, INT64_MIN, 0).refusal == 1 && bkm_log_doubles(40, INT64_MIN, 0).refusal == 3);
    back = bkm_read_doubles((bkm_doubles){-0x1p-48, 2 - 0x1p-48});
    check("minus one unit, and one below 2^49", back.refusal == 0 && back.x == -1 && back.y == 2 * one - 1);
    const double bad[] = {2, -2, 0x1p-49, 1 + 0x1p-52, -0.0, INFINITY, -INFINITY, NAN, 0x1p-1074};
    int all_refused = 1;
    for (size_t i = 0; i < sizeof bad / sizeof *bad; i++)
        all_refused &= unread(bkm_read_doubles((bkm_doubles){bad[i], 1})) && unread(bkm_read_doubles((bkm_doubles){1, bad[i]}));
    check("any other double is refused with 9 in either place, and both parts are zero", all_refused);

    printf("%d passed, %d failed\n", passed, failed);
    return failed != 0;
}
