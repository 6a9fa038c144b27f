/* The other libraries' exponential and logarithm behind one kind of call: whole numbers of
 * units in, as the sorter has them; the answer stays in the library's own numbers until
 * X_answer hands it out, so that only the library's work is timed. */
#include <complex.h>
#include <math.h>
#include <stdint.h>

#ifdef HAVE_MPC
#include <mpc.h>
#endif
#ifdef HAVE_ARB
#include <mpfr.h>
#if __has_include(<flint/acb.h>)
#include <flint/acb.h>
#else
#include <acb.h>
#endif
#endif

#define BITS 48 /* a unit is 1/2^48 */
#define PRECISION 64

/* The answer times 2^bits as whole numbers: a long double holds 64 bits, so nothing is lost.
 * X_answer gives back the bound that came with the answer, NAN for none. */
static void hand_out(long double re, long double im, int bits, __int128 *parts) {
    parts[0] = (__int128)ldexpl(re, bits);
    parts[1] = (__int128)ldexpl(im, bits);
}

static double complex d_answer;

void double_exp(int64_t ex, int64_t ey, int64_t sx, int64_t sy) {
    d_answer = cexp(CMPLX(0x1p-48 * ex, 0x1p-48 * ey)) * CMPLX(sx, sy);
}

void double_log(int64_t x, int64_t y) { d_answer = clog(CMPLX(0x1p-48 * x, 0x1p-48 * y)); }

double double_answer(int bits, __int128 *parts) {
    hand_out(creal(d_answer), cimag(d_answer), bits, parts);
    return NAN;
}

static long double complex l_answer;

void long_exp(int64_t ex, int64_t ey, int64_t sx, int64_t sy) {
    l_answer = cexpl(CMPLXL(0x1p-48L * ex, 0x1p-48L * ey)) * CMPLXL(sx, sy);
}

void long_log(int64_t x, int64_t y) { l_answer = clogl(CMPLXL(0x1p-48L * x, 0x1p-48L * y)); }

double long_answer(int bits, __int128 *parts) {
    hand_out(creall(l_answer), cimagl(l_answer), bits, parts);
    return NAN;
}

#ifdef HAVE_MPC
static mpc_t m_given, m_start, m_answer;

__attribute__((constructor)) static void mpc_begin(void) {
    mpc_init2(m_given, PRECISION);
    mpc_init2(m_start, PRECISION);
    mpc_init2(m_answer, PRECISION);
}

void mpc64_exp(int64_t ex, int64_t ey, int64_t sx, int64_t sy) {
    mpc_set_si_si(m_given, ex, ey, MPC_RNDNN);
    mpc_div_2ui(m_given, m_given, BITS, MPC_RNDNN);
    mpc_set_si_si(m_start, sx, sy, MPC_RNDNN);
    mpc_exp(m_answer, m_given, MPC_RNDNN);
    mpc_mul(m_answer, m_answer, m_start, MPC_RNDNN);
}

void mpc64_log(int64_t x, int64_t y) {
    mpc_set_si_si(m_given, x, y, MPC_RNDNN);
    mpc_div_2ui(m_given, m_given, BITS, MPC_RNDNN);
    mpc_log(m_answer, m_given, MPC_RNDNN);
}

double mpc64_answer(int bits, __int128 *parts) {
    hand_out(mpfr_get_ld(mpc_realref(m_answer), MPFR_RNDN),
             mpfr_get_ld(mpc_imagref(m_answer), MPFR_RNDN), bits, parts);
    return NAN;
}
#endif

#ifdef HAVE_ARB
static acb_t a_given, a_start, a_answer;

__attribute__((constructor)) static void arb_begin(void) {
    acb_init(a_given);
    acb_init(a_start);
    acb_init(a_answer);
}

void arb64_exp(int64_t ex, int64_t ey, int64_t sx, int64_t sy) {
    acb_set_si_si(a_given, ex, ey);
    acb_mul_2exp_si(a_given, a_given, -BITS);
    acb_set_si_si(a_start, sx, sy);
    acb_exp(a_answer, a_given, PRECISION);
    acb_mul(a_answer, a_answer, a_start, PRECISION);
}

void arb64_log(int64_t x, int64_t y) {
    acb_set_si_si(a_given, x, y);
    acb_mul_2exp_si(a_given, a_given, -BITS);
    acb_log(a_answer, a_given, PRECISION);
}

static long double middle(const arb_t part) {
    mpfr_t m;
    mpfr_init2(m, PRECISION);
    arf_get_mpfr(m, arb_midref(part), MPFR_RNDN);
    long double value = mpfr_get_ld(m, MPFR_RNDN);
    mpfr_clear(m);
    return value;
}

double arb64_answer(int bits, __int128 *parts) {
    hand_out(middle(acb_realref(a_answer)), middle(acb_imagref(a_answer)), bits, parts);
    return fmax(mag_get_d(arb_radref(acb_realref(a_answer))),
                mag_get_d(arb_radref(acb_imagref(a_answer))));
}
#endif
