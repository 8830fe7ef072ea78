/* Six strings in one instrument by blocks of 64, silent and with input, against plain C that keeps six voices in structs
   and clips the sum of what they put out. The best of ROUNDS by turns; a ratio of 1 is as fast as C. Both must put out the
   same samples. */
#define _GNU_SOURCE
#include "plain.h"
#include "../include/jivaszte.h"
#include <stdio.h>
#include <string.h>
#include <time.h>

enum { STRINGS = 6, BLOCK = 64, SAMPLES = 1 << 15, ROUNDS = 40, RATE = 48000 };

static int32_t input[SAMPLES], proved[SAMPLES], by_c[SAMPLES];

/* The time that this program has computed, in nanoseconds. */
static double now(void)
{
    struct timespec t;
    clock_gettime(CLOCK_THREAD_CPUTIME_ID, &t);
    return t.tv_sec * 1e9 + t.tv_nsec;
}

static void keep_least(double *best, double since)
{
    double took = now() - since;
    if (took < *best)
        *best = took;
}

static int32_t clipped(int32_t u) { return u > MOST ? MOST : u < -MOST ? -MOST : u; }

/* A mix of at most BLOCK samples: 9 and 10 of the whole input, and no input where it is null. */
static uint32_t plain_mix(Voice *voices, const int32_t *in, uint32_t samples, int32_t *out, uint32_t room)
{
    int32_t sums[BLOCK], part[BLOCK];
    int sounds = 0, loud = 0;
    if (samples != room)
        return 9;
    for (uint32_t i = 0; in && i < samples; i++) {
        sounds |= in[i] != 0;
        loud |= in[i] > MOST || in[i] < -MOST;
    }
    if (loud)
        return 10;
    render(&voices[0], sounds ? in : NULL, sums, room);
    for (int k = 1; k < STRINGS; k++) {
        render(&voices[k], sounds ? in : NULL, part, room);
        for (uint32_t i = 0; i < room; i++)
            sums[i] += part[i];
    }
    for (uint32_t i = 0; i < room; i++)
        out[i] = clipped(sums[i]);
    return 0;
}

/* order 0: two strings of each order. */
static int row(uint32_t order, int fed)
{
    static jivaszte_instrument instrument;
    static Voice voices[STRINGS];
    uint32_t refused = 0;
    double best[2] = { 1e18, 1e18 };
    for (uint32_t i = 0; i < SAMPLES; i++)
        input[i] = fed ? (int32_t)((i * 2654435761u) >> 20) - 2048 : 0;
    for (int r = 0; r < ROUNDS; r++) {
        jivaszte_instrument_reset(&instrument);
        for (uint32_t k = 0; k < STRINGS; k++) {
            uint32_t n = order ? order : k / 2 + 1, delay = 4096 * n + 300 * k - 1000;
            refused |= jivaszte_instrument_open(&instrument, k, n, 99 + 20 * k, delay, 65535, 64);
            refused |= jivaszte_instrument_pluck(&instrument, k, 255, 100, k + 1);
            refused |= open_voice(&voices[k], n, 99 + 20 * k, delay, 65535, 64) || pluck(&voices[k], 255, 100, k + 1);
        }
        double t = now();
        for (uint32_t i = 0; i < SAMPLES; i += BLOCK)
            refused |= jivaszte_instrument_mix(&instrument, input + i, BLOCK, proved + i, BLOCK);
        keep_least(&best[0], t);
        t = now();
        for (uint32_t i = 0; i < SAMPLES; i += BLOCK)
            refused |= plain_mix(voices, input + i, BLOCK, by_c + i, BLOCK);
        keep_least(&best[1], t);
    }
    int agree = !refused && !memcmp(proved, by_c, sizeof by_c);
    printf("| %s | %s | %.0f | %.0f | %.2f | %.0f |%s\n", order == 0 ? "1 to 3" : order == 1 ? "1" : order == 2 ? "2" : "3",
           fed ? "input" : "silent", SAMPLES / best[0] * 1e3, SAMPLES / best[1] * 1e3, best[1] / best[0],
           SAMPLES / best[0] * 1e9 / RATE, agree ? "" : " SAMPLES DIFFER");
    return agree;
}

int main(void)
{
    int agree = 1;
    printf("| orders | six strings by blocks of 64 | proved, million frames a second | C | ratio | times real time |\n"
           "|---|---|---|---|---|---|\n");
    for (uint32_t order = 0; order <= 3; order++)
        for (int fed = 0; fed < 2; fed++)
            agree &= row(order, fed);
    return !agree;
}
