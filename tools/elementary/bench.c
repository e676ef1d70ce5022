/* Time a call of exp_f32, ln_f32 and powf_f32 beside glibc's expf, logf and powf: nanoseconds, the least of many rounds
   over 65,536 varied arguments. exp: x from -20 to 20. ln: x from 1e-4 to 1e9. powf: that x, y from -4 to 1; "curve": x from
   1 to 1e9 and y from -0.95 to -0.01, what a forgetting curve asks; "large": x within 1 % of 1, |y| from 129 to 10,000. */
#include <math.h>
#include <stdint.h>
#include <stdio.h>
#include <stdlib.h>
#include <time.h>
#include "elementary.h"

enum { COUNT = 65536 };
static float wide[COUNT], large[COUNT], power[COUNT], base[COUNT], decay[COUNT], close[COUNT], far[COUNT];
static volatile float sink;

static double now(void)
{
    struct timespec t;
    clock_gettime(CLOCK_MONOTONIC, &t);
    return t.tv_sec * 1e9 + t.tv_nsec;
}

static double uniform(void)
{
    static uint64_t s = 1;
    s = s * 6364136223846793005u + 1442695040888963407u;
    return (double)(s >> 11) / 9007199254740992.0;
}

#define TIME(best, call)                                    \
    do {                                                    \
        double start = now(), took;                         \
        float sum = 0;                                      \
        for (int i = 0; i < COUNT; i++) sum += (call);      \
        took = (now() - start) / COUNT;                     \
        sink = sum;                                         \
        if (took < (best)) (best) = took;                   \
    } while (0)

int main(int argc, char **argv)
{
    int rounds = argc > 1 ? atoi(argv[1]) : 200;
    double t[10] = {1e9, 1e9, 1e9, 1e9, 1e9, 1e9, 1e9, 1e9, 1e9, 1e9};
    for (int i = 0; i < COUNT; i++) {
        wide[i] = (float)(uniform() * 40 - 20);
        large[i] = (float)exp(log(1e-4) + uniform() * (log(1e9) - log(1e-4)));
        power[i] = (float)(uniform() * 5 - 4);
        base[i] = (float)exp(uniform() * log(1e9));
        decay[i] = (float)(uniform() * 0.94 - 0.95);
        close[i] = (float)(1 + (uniform() - 0.5) / 50);
        far[i] = (float)((129 + uniform() * 9871) * (uniform() < 0.5 ? 1 : -1));
    }
    for (int r = 0; r < rounds; r++) {
        TIME(t[0], exp_f32(wide[i]));
        TIME(t[1], expf(wide[i]));
        TIME(t[2], ln_f32(large[i]));
        TIME(t[3], logf(large[i]));
        TIME(t[4], powf_f32(large[i], power[i]));
        TIME(t[5], powf(large[i], power[i]));
        TIME(t[6], powf_f32(base[i], decay[i]));
        TIME(t[7], powf(base[i], decay[i]));
        TIME(t[8], powf_f32(close[i], far[i]));
        TIME(t[9], powf(close[i], far[i]));
    }
    static const char *name[5] = {"exp", "ln", "powf", "curve", "large"};
    for (int k = 0; k < 5; k++)
        printf("%-5s %5.2f ns   glibc %5.2f ns   ratio %.2f\n", name[k], t[2 * k], t[2 * k + 1], t[2 * k] / t[2 * k + 1]);
    return 0;
}
