/* The WAV writer and reader, timed against plain C over the same million samples. */
#include "../include/jivaszte.h"
#include "bench.h"
#include "plain.h"
#include <string.h>

enum { COUNT = 1000000, RUNS = 3 };

static int32_t samples[COUNT], back[2][COUNT];
static uint8_t file[2][JIVASZTE_WAV_SIZE(COUNT)];

static void make_samples(void)
{
    uint32_t state = 1;
    for (size_t i = 0; i < COUNT; i++) {
        state = 1664525 * state + 1013904223;
        samples[i] = (int32_t)((state >> 8) % 16777215) - 8388607;
    }
}

/* Which of the two, 0 for C and 1 for the proved one: how long it took to write, or to read. -1 where it was refused. */
static double once(int reads, int which)
{
    size_t count;
    uint32_t rate, refusal;
    double from = seconds();
    if (reads)
        refusal = (which ? jivaszte_wav_read : plain_wav_read)(file[0], sizeof file[0], back[which], COUNT, &rate, &count);
    else
        refusal = (which ? jivaszte_wav_write : plain_wav_write)(44100, samples, COUNT, file[which], sizeof file[0], &count);
    double took = seconds() - from;
    return refusal == 0 && count == (reads ? COUNT : sizeof file[0]) ? took : -1;
}

int time_recording(int reads, double best[2])
{
    make_samples();
    once(0, 0);
    memset(file[1], 90, sizeof file[1]);
    memset(back, 90, sizeof back);
    for (int i = 0; i < 2 * RUNS; i++) {
        int which = (i + i / 2) % 2;
        double t = once(reads, which);
        if (t < 0)
            return 0;
        best[which] = best[which] == 0 || t < best[which] ? t : best[which];
    }
    return reads ? !memcmp(back[0], samples, sizeof samples) && !memcmp(back[1], samples, sizeof samples)
                 : !memcmp(file[0], file[1], sizeof file[0]);
}
