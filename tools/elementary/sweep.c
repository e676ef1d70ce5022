/* Compares exp_f32 and ln_f32 with the C library's double precision functions at every f32, and reports the worst error
   in steps (ln: in the larger of a step and 2^-40) and every result that its special case does not allow.
   sweep [STRIDE [FIRST]] looks at each STRIDE-th bit pattern from FIRST on; without arguments at all 2^32. */
#include <inttypes.h>
#include <math.h>
#include <stdint.h>
#include <stdio.h>
#include <stdlib.h>
#include <string.h>
#include "elementary.h"

static float float_of(uint32_t b)
{
    float x;
    memcpy(&x, &b, 4);
    return x;
}

static uint32_t bits_of(float x)
{
    uint32_t b;
    memcpy(&b, &x, 4);
    return b;
}

static double step_at(double v)
{
    int e = v == 0 ? -1000 : ilogb(v);
    return ldexp(1, e < -126 ? -149 : e - 23);
}

static uint64_t wrong;

static void report(const char *name, uint32_t b, float r)
{
    if (wrong++ < 20)
        printf("%s(%08" PRIX32 ") gave %08" PRIX32 "\n", name, b, bits_of(r));
}

static double exp_error(uint32_t b)
{
    float x = float_of(b), r = exp_f32(x);
    if (x != x) {
        if (r == r) report("exp", b, r);
        return 0;
    }
    if (b >= 0x42B17218 && b < 0x80000000) {
        if (bits_of(r) != 0x7F800000) report("exp", b, r);
        return 0;
    }
    if (b >= 0xC2AEAC50) {
        if (bits_of(r) != 0) report("exp", b, r);
        return 0;
    }
    double v = exp((double)x);
    return fabs(r - v) / step_at(v);
}

static double ln_error(uint32_t b)
{
    float x = float_of(b), r = ln_f32(x);
    if (x != x || b > 0x80000000) {
        if (r == r) report("ln", b, r);
        return 0;
    }
    if (b == 0 || b == 0x80000000 || b == 0x7F800000) {
        if (bits_of(r) != (b == 0x7F800000 ? 0x7F800000 : 0xFF800000)) report("ln", b, r);
        return 0;
    }
    if (b == 0x3F800000) {
        if (bits_of(r) != 0) report("ln", b, r);
        return 0;
    }
    double v = log((double)x), s = step_at(v);
    return fabs(r - v) / (s < 0x1p-40 ? 0x1p-40 : s);
}

int main(int argc, char **argv)
{
    uint64_t stride = argc > 1 ? strtoull(argv[1], NULL, 0) : 1, first = argc > 2 ? strtoull(argv[2], NULL, 0) : 0;
    double worst[2] = {0, 0};
    uint32_t at[2] = {0, 0};
    for (uint64_t b = first; b < (uint64_t)1 << 32; b += stride) {
        double e = exp_error((uint32_t)b), l = ln_error((uint32_t)b);
        if (!(e <= worst[0])) worst[0] = e, at[0] = (uint32_t)b;
        if (!(l <= worst[1])) worst[1] = l, at[1] = (uint32_t)b;
    }
    printf("exp: at most %.4f steps, at %08" PRIX32 "\n", worst[0], at[0]);
    printf("ln: at most %.4f of the larger of a step and 2^-40, at %08" PRIX32 "\n", worst[1], at[1]);
    printf("%" PRIu64 " special results wrong\n", wrong);
    return wrong != 0 || worst[0] > 1 || worst[1] > 1;
}
