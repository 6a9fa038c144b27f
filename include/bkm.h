/* EXP and LOG of points in units of 1/2^48, EXP by the register too, LOG in doubles, the lines of a
 * sheet, and two sheets merged into one: the C face of the library.
 *
 * Link target/staticlib/libcontroller.a, which `bash tools/build library` makes.
 *
 * A point is a pair of signed 64-bit numbers of units, so one is 281474976710656.
 *
 * Every input is allowed: what cannot be answered is refused under a number, BKM_REFUSED_* below,
 * and no call fails in another way. None keeps memory or has state of its own, so calls may be
 * made from any thread, at the same time too, as long as nobody else writes what a call is lent
 * while it runs, or reads its output.
 *
 * What a call reads or writes is lent as an address and a length in bytes; with the length 0 the
 * address may be NULL. Output may not overlap what the same call reads; the two sheets of a merge,
 * which are only read, may. Bytes of an output past those that a call writes keep their values.
 */
#ifndef BKM_H
#define BKM_H

#include <stddef.h>
#include <stdint.h>

#ifdef __cplusplus
extern "C" {
#endif

/* Why an input is refused. Where several hold, the first of them in the order 6, 5, 7, then 1, 2, 3,
 * 4; what a merge refuses, and 9, stand at their calls.
 */
enum bkm_refusal {
    BKM_REFUSED_STEPS = 1,    /* n is out of range */
    BKM_REFUSED_EXPONENT = 2, /* EXP: a part of the exponent is over 8 in size, that is 2^51 units */
    BKM_REFUSED_PART = 3,     /* a part of the start or of the point is over 2^58 units in size */
    BKM_REFUSED_ZERO = 4,     /* LOG: the point is zero */
    BKM_REFUSED_LINE = 5,     /* a line of a sheet is malformed */
    BKM_REFUSED_ROOM = 6,     /* the output is too short; nothing is written */
    BKM_REFUSED_SERIAL = 7,   /* a kernel number is not above those before it on its sheet */
    BKM_REFUSED_CLASH = 8,    /* merging: one kernel number has two differing lines */
    BKM_REFUSED_DOUBLE = 9    /* a double is no whole number of units below 2^49 in size */
};

/* Sizes in bytes: of a record, and the least room for the answer to a line. */
enum { BKM_RECORD_BYTES = 64, BKM_ANSWER_ROOM = 128 };

/* What bkm_exp, bkm_exp_register and bkm_log write: a record of 64 bytes, eight signed numbers of 8
 * bytes each, two's complement, low byte first, in this order. In a refused record all but the
 * first are 0.
 */
typedef struct {
    int64_t refusal;                  /* the refusal number, or 0 */
    int64_t x, y;                     /* the parts of the answer, in units (for EXP, times 2^k) */
    int64_t k;                        /* the binary exponent */
    int64_t q;                        /* the quadrant, -2 to 2 (0 for EXP) */
    int64_t error_bound;              /* what each part is off by at most, in units (for EXP, times 2^k) */
    int64_t remainder_x, remainder_y; /* what the n steps have left over, in units */
} bkm_record;

/* Number i of a record's bytes, i from 0 to 7. */
static inline int64_t bkm_number(const uint8_t *record, int i)
{
    uint64_t bits = 0;
    for (int j = 7; j >= 0; j--)
        bits = bits << 8 | record[8 * i + j];
    return bits <= INT64_MAX ? (int64_t)bits : -(int64_t)(UINT64_MAX - bits) - 1;
}

/* The record that BKM_RECORD_BYTES bytes are, on a machine of either byte order. */
static inline bkm_record bkm_read_record(const uint8_t *bytes)
{
    bkm_record r;
    r.refusal = bkm_number(bytes, 0);
    r.x = bkm_number(bytes, 1);
    r.y = bkm_number(bytes, 2);
    r.k = bkm_number(bytes, 3);
    r.q = bkm_number(bytes, 4);
    r.error_bound = bkm_number(bytes, 5);
    r.remainder_x = bkm_number(bytes, 6);
    r.remainder_y = bkm_number(bytes, 7);
    return r;
}

/* The start (sx, sy) times the exponential of (ex, ey)/2^48, by n steps, into a record at out.
 * Returns the refusal number, or 0; refused with 6 where out_len is under BKM_RECORD_BYTES.
 *
 *     n             1 to 40, else 1
 *     ex, ey        at most 2^51 in size, that is 8, else 2
 *     sx, sy        at most 2^58 in size, else 3
 *
 * The product is 2^k times the two parts of the answer, nearly: each part is off by at
 * most 2^k times the error bound, which is 8*M/2^n rounded up, plus 2*n.
 *
 * k is 0 and M is the larger of the sizes of sx and sy where the exponent lies in a
 * rectangle around nought: ex from -233096465088512 to 241892558110720, that is -53/64 to
 * 55/64, and ey at most 206708186021888 in size, that is 47/64. Outside it k is from -12 to
 * 12, and M is the larger of the sizes of the parts of the start times 1, 1+i, i, -1+i, -1,
 * -1-i, -i or 1-i, by p modulo 8: p is floor(ey/Q + 1/2) with Q = 221069929750889, the number of
 * units nearest pi/4.
 *
 * The remainder is what the steps have left of the exponent; outside the rectangle they run on
 * what p eighths of a turn and k doublings leave of it. Each of its parts is below 2^(48-n) in
 * size, that is 1/2^n: how near it is to nought says how far the steps have come. With r the
 * remainder over 2^48, the product is 2^k times the answer times exp(r), each part off by at most
 * 2^k times (12*n + 51)*M/2^48 + 2*n + 3: so much is due to rounding, the rest of the error to what
 * is left over.
 */
int64_t bkm_exp(int64_t n, int64_t ex, int64_t ey, int64_t sx, int64_t sy, uint8_t *out, size_t out_len);

/* The same by the register engine, the doubled form that the sorter's maker builds in hardware: the
 * same record and the same number as bkm_exp, byte for byte, for every input. After step n its
 * register is 2^(n+1) times the remainder of the call with that n. It takes about as long as
 * bkm_exp, and is there to hold a register in hardware to.
 */
int64_t bkm_exp_register(int64_t n, int64_t ex, int64_t ey, int64_t sx, int64_t sy, uint8_t *out, size_t out_len);

/* The logarithm of the point (x, y), by steps 3 to n, into a record at out. Returns the refusal
 * number, or 0; refused with 6 where out_len is under BKM_RECORD_BYTES.
 *
 *     n             3 to 40, else 1
 *     x, y          at most 2^58 in size, else 3; not both zero, else 4
 *
 * With z the answer over 2^48, the point is 2^(48+k) * i^q * exp(z), each part in
 * units off by at most the error bound, which is 3*M/2^n rounded up; M is the larger
 * of the sizes of x and y.
 *
 * The point is i^q * w for a w with -wx < wy <= wx. Its angle, q quarter turns and that
 * of w, lies above minus half a turn and at most at half a turn: q >= 0 for y >= 0, and
 * q <= 0 for y < 0. A point straight to the left has q = 2, one just below it -2.
 *
 * The steps bring the point, turned and scaled, near one; the remainder is where it is after the
 * last of them, less one, each part below 2^(48-n) in size. With r the remainder over 2^48, the
 * point is 2^(48+k) * i^q * exp(z) * (1 + r), each part off by at most (10*n + 3)*M/2^48: so much is
 * due to rounding, the rest of the error to what is left over.
 */
int64_t bkm_log(int64_t n, int64_t x, int64_t y, uint8_t *out, size_t out_len);

/* Two parts as doubles, each over 2^48. */
typedef struct {
    double x, y;
} bkm_doubles;

/* LOG's answer in doubles: the refusal number or 0, and the two parts. */
typedef struct {
    int64_t refusal;
    bkm_doubles parts;
} bkm_doubles_answer;

/* Two doubles that were read: 9 or 0, and the two parts in units. */
typedef struct {
    int64_t refusal, x, y;
} bkm_units_answer;

/* As bkm_log, with the two parts of the answer as doubles. Each double is the part divided by
 * 2^48 and nothing is lost: no part is as large as 2^49 units, so none is rounded. A part of
 * nought is plus zero. A refused call gives its number, 1, 3 or 4 as above, and two zeros, both
 * plus zero. k, q, the error bound and the remainder are those of bkm_log.
 */
bkm_doubles_answer bkm_log_doubles(int64_t n, int64_t x, int64_t y);

/* Two such doubles read back as whole numbers of units: those of an answered bkm_log_doubles give
 * the two parts of bkm_log. Accepted is every double that is a whole number of units below 2^49 in
 * size, that is below two, and divided by 2^48 again the number is the same double, bit for bit.
 * Every other one is refused with 9: fractions of a unit, 2^49 units and more, minus zero,
 * infinities and what is not a number. Where one of the two is refused, both parts are 0.
 */
bkm_units_answer bkm_read_doubles(bkm_doubles doubles);

/* The answer to a line of a sheet, given without its newline, as the program bkm answers it where
 * it is the first: its bytes, a newline at the end, from the front of out. Returns how many there
 * are, at most BKM_ANSWER_ROOM, or 0 where out_len is under that and nothing is written.
 *
 * A line has these fields, parted by one tab (byte 9), and is answered by these:
 *
 *     number EXP n ex ey sx sy    number EXP n x y remainder_x remainder_y k error_bound
 *     number LOG n x y            number LOG n x y remainder_x remainder_y k q error_bound
 *                                 number REF refusal_number
 *
 * The kernel number is 1 to 9999999. Every number is an optional minus and digits, from -2^63 to
 * 2^63 - 1, with no leading zero but for 0 itself and no -0. Any other line is malformed, one with a
 * carriage return, a space or a plus among them, and is answered 0, REF, 5; else REF has 1 to 4 as
 * above. 7 is not among them, since the call knows of no other line.
 */
size_t bkm_line(const uint8_t *line, size_t line_len, uint8_t *out, size_t out_len);

/* Two sheets merged into one whose kernel numbers rise, each line copied unchanged, from the
 * front of out; a last line without its newline gets one. Where both sheets have the same
 * line under one number, it is written once. Returns how many bytes were written, or minus
 * the refusal number, and then nothing is written. Refusals:
 *
 *     6   out_len is under a_len + b_len + 2; no line is looked at
 *     5   a line is malformed
 *     7   a number is not above the one before it in the same sheet
 *     8   one number has two differing lines
 *
 * The lines are met in the order in which they are written, a line of a beside one of b; the
 * pair that is met first decides which refusal is given, and there 5 comes before 7 and 7
 * before 8. What one sheet has left when the other is used up is checked like the rest.
 */
int64_t bkm_merge(const uint8_t *a, size_t a_len, const uint8_t *b, size_t b_len, uint8_t *out, size_t out_len);

/* What stops a merge: the refusal number 5, 7 or 8, or 0, and the line of each sheet that it is due
 * to, counted from 1, or 0 where it is not due to that sheet.
 */
typedef struct {
    int64_t refusal;
    size_t first, second;
} bkm_stop;

/* Which lines bkm_merge refuses the sheets a and b for, given room enough. 5 and 7 are due to the
 * line that is malformed or whose number does not rise, to both lines of the pair where both are; 8
 * is due to both.
 */
bkm_stop bkm_merge_stopped_at(const uint8_t *a, size_t a_len, const uint8_t *b, size_t b_len);

/* The table that the steps use: in units, the logarithm of 1 + (dx + i*dy)/2^n for n from
 * 1 to 40 and dx, dy from -1 to 1, its real part for part 0 and its imaginary part for any
 * other. 0 for everything outside.
 */
int64_t bkm_step_entry(size_t n, int64_t dx, int64_t dy, size_t part);

#ifdef __cplusplus
}
#endif

#endif
