/* EXP and LOG of the papers as one would write them in C with nothing proved. */
#ifndef ENGINES_H
#define ENGINES_H

#include <stddef.h>
#include <stdint.h>

/* The numbers of a record in their order; all but the first are 0 when refused. */
struct answer {
    int64_t refusal, x, y, k, q, bound, remainder_x, remainder_y;
};

struct answer engine_exp(int64_t n, int64_t ex, int64_t ey, int64_t sx, int64_t sy);
/* By the register, which is 2^i times the exponent before step i. */
struct answer engine_exp_register(int64_t n, int64_t ex, int64_t ey, int64_t sx, int64_t sy);
struct answer engine_log(int64_t n, int64_t px, int64_t py);

/* As bkm_exp, bkm_exp_register and bkm_log of include/bkm.h. */
int64_t plain_exp(int64_t n, int64_t ex, int64_t ey, int64_t sx, int64_t sy, uint8_t *out, size_t len);
int64_t plain_exp_register(int64_t n, int64_t ex, int64_t ey, int64_t sx, int64_t sy, uint8_t *out, size_t len);
int64_t plain_log(int64_t n, int64_t x, int64_t y, uint8_t *out, size_t len);

struct doubles {
    double x, y;
};

struct doubles_answer {
    int64_t refusal;
    struct doubles parts;
};

struct units_answer {
    int64_t refusal, x, y;
};

/* As bkm_log_doubles and bkm_read_doubles. */
struct doubles_answer plain_log_doubles(int64_t n, int64_t x, int64_t y);
struct units_answer plain_read_doubles(struct doubles doubles);

#endif
