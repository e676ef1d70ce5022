/* Compares powf_f32 with the C library's double precision pow: the worst error in steps where x^y is from 2^-126 to 2^127,
   and every result that is not 0 below 2^-127 or not +infinity from 2^129. sweep_powf [N] tries N pairs of each kind. */
#include <inttypes.h>
#include <math.h>
#include <stdint.h>
#include <stdio.h>
#include <stdlib.h>
#include <string.h>
#include "elementary.h"

enum { KINDS = 8 };
static const char *kind[KINDS] = {
    "a curve's: x from 1 to 2^30, y from -0.95 to -0.01",
    "x from 1 to 2^32, y from -2 to -2^-31",
    "any x, subnormal too, |y| up to 128, x^y from 2^-152 to 2^130",
    "x from 1/4 to 4, |y| from 64 to 128",
    "any patterns",
    "x within 2^-k of 1, |y| from 128 to 2^32, x^y from 2^-130 to 2^130",
    "x within 2^-k of 1, x^y next to an end of a range",
    "x next to 1, |y| from 2^24 to 2^127",
};

static float float_of(uint32_t b)
{
    float x;
    memcpy(&x, &b, 4);
    return x;
}

static uint64_t draw(void)
{
    static uint64_t s = 88172645463325252u;
    s ^= s << 13;
    s ^= s >> 7;
    return s ^= s << 17;
}

static double uniform(double a, double b) { return a + (double)(draw() >> 11) / 9007199254740992.0 * (b - a); }

static float near_one(void)
{
    int k = 1 + draw() % 22;
    int32_t d = (int32_t)(draw() % (2u << k)) - (1 << k);
    return float_of(0x3F800000 + d);
}

static double worst[KINDS];
static uint64_t counted[KINDS], zeros, infinities, wrong;

static void try(int k, float x, float y)
{
    if (!(x > 0) || isinf(x) || y != y || isinf(y)) return;
    double v = pow(x, y);
    float r = powf_f32(x, y);
    int bad = 0;
    if (v < 0x1p-127 * (1 - 0x1p-48)) {
        zeros++;
        bad = r != 0 || signbit(r);
    } else if (v > 0x1p129 * (1 - 0x1p-48)) {
        infinities++;
        bad = r != INFINITY;
    } else if (v >= 0x1p-126 && v <= 0x1p127) {
        double e = fabs(r - v) / ldexp(1, ilogb(v) - 23);
        counted[k]++;
        if (e > worst[k]) worst[k] = e;
        bad = !(e <= 2);
    }
    if (bad && wrong++ < 20) printf("powf(%a, %a) gave %a, x^y is %a\n", x, y, r, v);
}

static float exponent(float x, double log2_power)
{
    double l = log2(x);
    return l == 0 ? (float)log2_power : (float)(log2_power / l);
}

int main(int argc, char **argv)
{
    static const double end[6] = {-127, -126, 127, 128, 129, -126.5};
    long n = argc > 1 ? atol(argv[1]) : 12500000;
    for (long i = 0; i < n; i++) {
        float x = (float)exp2(uniform(0, 30));
        try(0, x, (float)uniform(-0.95, -0.01));
        try(1, float_of(0x3F800000 + draw() % 0x10000000), float_of(0xB0000000 + draw() % 0x10000000));
        x = float_of(1 + draw() % 0x7F7FFFFF);
        float y = exponent(x, uniform(-152, 130));
        try(2, x, fabsf(y) <= 128 ? y : copysignf((float)uniform(100, 128), y));
        try(3, float_of(0x3E800000 + draw() % 0x2000000), (float)(uniform(64, 128) * (draw() & 1 ? 1 : -1)));
        try(4, float_of(draw() % 0x7F800000), float_of((uint32_t)draw()));
        x = near_one();
        y = exponent(x, uniform(-130, 130));
        if (fabsf(y) > 128) try(5, x, y);
        x = near_one();
        try(6, x, exponent(x, end[draw() % 6] + uniform(-1e-5, 1e-5) * (draw() & 1)));
        x = float_of(0x3F800000 + (int32_t)(draw() % 17) - 8);
        try(7, x, float_of((0x4B800000 + draw() % 0x33800000) | (draw() & 1 ? 0x80000000u : 0)));
    }
    for (int k = 0; k < KINDS; k++) printf("%-72s %9" PRIu64 " pairs, worst %.4f steps\n", kind[k], counted[k], worst[k]);
    printf("%" PRIu64 " below 2^-127, %" PRIu64 " from 2^129; %" PRIu64 " wrong\n", zeros, infinities, wrong);
    return wrong != 0;
}
