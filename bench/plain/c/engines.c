/* The engines. Right shifts of negative numbers keep the sign, as every compiler here has it. The digits and
 * half of 2^i have the form that is the fastest in each. */
#include "engines.h"
#include "tables.h"

#include <string.h>

#define ONE (INT64_C(1) << 48)
#define MAX_EXPONENT (8 * ONE)
#define MAX_PART (INT64_C(1) << 58)

static struct answer refused(int64_t number) {
    return (struct answer){.refusal = number};
}

static int part_is_refused(int64_t part) {
    return part < -MAX_PART || part > MAX_PART;
}

/* factor*M/2^n rounded up. */
static int64_t share(int64_t factor, int64_t x, int64_t y, int64_t n) {
    int64_t ax = x < 0 ? -x : x, ay = y < 0 ? -y : y, larger = ax < ay ? ay : ax;
    return (factor * larger + (INT64_C(1) << n) - 1) >> n;
}

static int exponent_part_is_refused(int64_t part) {
    return part < -MAX_EXPONENT || part > MAX_EXPONENT;
}

static int in_rectangle(int64_t ex, int64_t ey) {
    return ex >= -53 * ONE / 64 && ex <= 55 * ONE / 64 && ey >= -47 * ONE / 64 && ey <= 47 * ONE / 64;
}

/* floor(part/unit + 1/2) for a part above -15 units: what is divided is not negative. */
static int64_t nearest_multiple(int64_t part, int64_t unit) {
    return (2 * part + 31 * unit) / (2 * unit) - 15;
}

/* What EXP's steps are given, with k and the bound; first the refusal number or 0. */
struct reduced {
    int64_t refusal, ex, ey, x, y, k, bound;
};

static inline struct reduced reduced(int64_t n, int64_t ex, int64_t ey, int64_t sx, int64_t sy) {
    if (n < 1 || n > 40)
        return (struct reduced){.refusal = 1};
    if (exponent_part_is_refused(ex) || exponent_part_is_refused(ey))
        return (struct reduced){.refusal = 2};
    if (part_is_refused(sx) || part_is_refused(sy))
        return (struct reduced){.refusal = 3};
    int64_t x = sx, y = sy, k = 0;
    if (!in_rectangle(ex, ey)) {
        int64_t p = nearest_multiple(ey, EIGHTH_TURN);
        ey -= p * EIGHTH_TURN;
        /* The start times (1 + i)^p, but for the powers of two. */
        if (p & 1)
            ex -= HALF_LN_2, x = sx - sy, y = sx + sy;
        if (p & 2) {
            int64_t old_x = x;
            x = -y, y = old_x;
        }
        if (p & 4)
            x = -x, y = -y;
        k = nearest_multiple(ex, LN_2);
        ex -= k * LN_2;
    }
    return (struct reduced){0, ex, ey, x, y, k, share(8, x, y, n) + 2 * n};
}

struct answer engine_exp(int64_t n, int64_t ex, int64_t ey, int64_t sx, int64_t sy) {
    struct reduced r = reduced(n, ex, ey, sx, sy);
    if (r.refusal)
        return refused(r.refusal);
    int64_t x = r.x, y = r.y;
    for (int64_t i = 1; i <= n; i++) {
        int64_t dx = (r.ex >= (ONE / 8 * 3) >> i) - (r.ex < (-ONE / 2) >> i);
        int64_t dy = (r.ey >= (ONE / 16 * 13) >> i) - (r.ey < (-ONE / 4 * 3) >> i);
        struct entry entry = STEPS[i - 1][dx + 1][dy + 1];
        int64_t old_x = x, to_nearest = INT64_C(1) << (i - 1);
        x += (dx * x - dy * y + to_nearest) >> i;
        y += (dx * y + dy * old_x + to_nearest) >> i;
        r.ex -= entry.re;
        r.ey -= entry.im;
    }
    return (struct answer){.x = x, .y = y, .k = r.k, .bound = r.bound,
                           .remainder_x = r.ex, .remainder_y = r.ey};
}

struct answer engine_exp_register(int64_t n, int64_t ex, int64_t ey, int64_t sx, int64_t sy) {
    struct reduced r = reduced(n, ex, ey, sx, sy);
    if (r.refusal)
        return refused(r.refusal);
    int64_t x = r.x, y = r.y, alpha_x = 2 * r.ex, alpha_y = 2 * r.ey;
    for (int64_t i = 1; i <= n; i++) {
        /* Looked at are x in eighths and y in sixteenths. */
        int64_t cut_x = alpha_x >> 45, cut_y = alpha_y >> 44;
        int64_t dx = (cut_x >= 3) - (cut_x <= -5), dy = (cut_y >= 13) - (cut_y <= -13);
        struct entry entry = STEPS[i - 1][dx + 1][dy + 1];
        int64_t old_x = x, to_nearest = INT64_C(1) << (i - 1), scale = INT64_C(2) << i;
        x += (dx * x - dy * y + to_nearest) >> i;
        y += (dx * y + dy * old_x + to_nearest) >> i;
        alpha_x = 2 * alpha_x - scale * entry.re;
        alpha_y = 2 * alpha_y - scale * entry.im;
    }
    return (struct answer){.x = x, .y = y, .k = r.k, .bound = r.bound,
                           .remainder_x = alpha_x >> (n + 1), .remainder_y = alpha_y >> (n + 1)};
}

/* 64 times the reciprocal of (x + iy)/32, each part as floor(value + 1/2). One division serves both: 2^27/S is cut, but no
   part is so near a half that it would tell. */
static struct entry reciprocal(int32_t x, int32_t y) {
    int32_t one_over_s = (int32_t)((UINT32_C(1) << 27) / (uint32_t)(x * x + y * y));
    return (struct entry){(one_over_s * x + (1 << 15)) >> 16, ((1 << 15) - one_over_s * y) >> 16};
}

struct answer engine_log(int64_t n, int64_t px, int64_t py) {
    if (n < 3 || n > 40)
        return refused(1);
    if (part_is_refused(px) || part_is_refused(py))
        return refused(3);
    if (px == 0 && py == 0)
        return refused(4);
    /* The point is i^q*(wx + i*wy) with -wx < wy <= wx; half a turn is written -2 where wy is above zero. */
    int64_t q, wx, wy;
    if (-px < py && py <= px) {
        q = 0, wx = px, wy = py;
    } else if (-py < -px && -px <= py) {
        q = 1, wx = py, wy = -px;
    } else if (px < -py && -py <= -px) {
        q = py < 0 ? -2 : 2, wx = -px, wy = -py;
    } else {
        q = -1, wx = -py, wy = px;
    }
    int64_t k = 16 - __builtin_clzll((unsigned long long)wx);
    if (k <= 0) {
        wx = (int64_t)((uint64_t)wx << -k);
        wy = (int64_t)((uint64_t)wy << -k);
    } else {
        wx >>= k;
        wy >>= k;
    }
    /* Cells have side 1/16; X = 17 is the first, from 8/16 on, and Y = -31 from -16/16 on. */
    int32_t column = (int32_t)(wx >> 44), row = (int32_t)(wy >> 44);
    struct entry inverse = reciprocal(2 * column + 1, 2 * row + 1), log = RECIPROCAL_LOGS[column - 8][row + 16];
    int64_t x = (inverse.re * wx - inverse.im * wy) >> 6, y = (inverse.re * wy + inverse.im * wx) >> 6;
    int64_t answer_x = -log.re, answer_y = -log.im;
    for (int64_t i = 3; i <= n; i++) {
        int64_t half = (ONE / 2) >> i, u = x - ONE;
        int64_t dx = u >= half ? -1 : u <= -half, dy = y >= half ? -1 : y <= -half;
        struct entry entry = STEPS[i - 1][dx + 1][dy + 1];
        int64_t old_x = x, to_nearest = (INT64_C(1) << 62) >> (63 - i);
        x += (dx * x - dy * y + to_nearest) >> i;
        y += (dx * y + dy * old_x + to_nearest) >> i;
        answer_x -= entry.re;
        answer_y -= entry.im;
    }
    return (struct answer){.x = answer_x, .y = answer_y, .k = k, .q = q, .bound = share(3, px, py, n),
                           .remainder_x = x - ONE, .remainder_y = y};
}

/* A machine that stores the low byte first holds a record as it is. */
_Static_assert(sizeof(struct answer) == 64 && __BYTE_ORDER__ == __ORDER_LITTLE_ENDIAN__, "the record");

static int64_t write_record(struct answer answer, uint8_t *out) {
    memcpy(out, &answer, sizeof answer);
    return answer.refusal;
}

int64_t plain_exp(int64_t n, int64_t ex, int64_t ey, int64_t sx, int64_t sy, uint8_t *out, size_t len) {
    return len < sizeof(struct answer) ? 6 : write_record(engine_exp(n, ex, ey, sx, sy), out);
}

int64_t plain_exp_register(int64_t n, int64_t ex, int64_t ey, int64_t sx, int64_t sy, uint8_t *out, size_t len) {
    return len < sizeof(struct answer) ? 6 : write_record(engine_exp_register(n, ex, ey, sx, sy), out);
}

int64_t plain_log(int64_t n, int64_t x, int64_t y, uint8_t *out, size_t len) {
    return len < sizeof(struct answer) ? 6 : write_record(engine_log(n, x, y), out);
}

struct doubles_answer plain_log_doubles(int64_t n, int64_t x, int64_t y) {
    struct answer answer = engine_log(n, x, y);
    return (struct doubles_answer){answer.refusal, {(double)answer.x / ONE, (double)answer.y / ONE}};
}

/* Whether x is a whole number of units below 2^49 in size and not minus zero, and which one. */
static int read_part(double x, int64_t *units) {
    double product = x * ONE;
    if (!(product > -2.0 * ONE && product < 2.0 * ONE))
        return 0;
    *units = (int64_t)product;
    return (double)*units == product && (*units != 0 || !__builtin_signbit(x));
}

struct units_answer plain_read_doubles(struct doubles doubles) {
    int64_t x, y;
    if (read_part(doubles.x, &x) && read_part(doubles.y, &y))
        return (struct units_answer){0, x, y};
    return (struct units_answer){.refusal = 9};
}
