/* A voice that the host keeps, block by block: the calls of jivaszte_voice against jivaszte_perform over the same blocks
   and plain C that keeps its voice in a struct. Nanoseconds a block, the best of ROUNDS by turns; "list" and "C" are the
   list's and C's time by that of the block, so that 1 is as fast. All three must put out the same samples. */
#define _GNU_SOURCE
#include "plain.h"
#include "../include/jivaszte.h"
#include <stdio.h>
#include <string.h>
#include <time.h>

enum { SAMPLES = 1 << 14, ROUNDS = 60, LOSS = 65535, ADVANCE = 64, LENGTH = 99 };

static int32_t input[SAMPLES], by_block[SAMPLES], by_list[SAMPLES], by_c[SAMPLES];
static uint32_t words[4 * SAMPLES], numbers[SAMPLES];

/* The time that this program has computed. */
static double now(void)
{
    struct timespec t;
    clock_gettime(CLOCK_THREAD_CPUTIME_ID, &t);
    return t.tv_sec * 1e9 + t.tv_nsec;
}

static void keep_least(double *best, double since)
{
    double took = now() - since;
    if (took < *best)
        *best = took;
}

/* SILENT: blocks of zeros that come in; PLAYED: no input; FED: noise comes in. */
enum { SILENT, PLAYED, FED, KINDS };
static const char *const names[] = { "zeros", "played", "input" };

static int row(uint32_t order, int kind, uint32_t block)
{
    static jivaszte_voice voice;
    static Voice plain;
    uint32_t delay = 4096 * order - 1000, calls = SAMPLES / block, refused = 0, opening;
    size_t written;
    double best[3] = { 1e18, 1e18, 1e18 };
    for (uint32_t i = 0; i < SAMPLES; i++)
        input[i] = kind == FED ? (int32_t)((i * 2654435761u) >> 20) - 2048 : 0;
    for (uint32_t i = 0; i < calls; i++) {
        uint32_t call[4] = { JIVASZTE_CALL_BLOCK, block, block, 0 };
        memcpy(words + 4 * i, call, sizeof call);
    }
    for (int r = 0; r < ROUNDS; r++) {
        refused |= jivaszte_voice_open(&voice, order, LENGTH, delay, LOSS, ADVANCE);
        double t = now();
        for (uint32_t i = 0; i < SAMPLES; i += block)
            refused |= kind == PLAYED ? jivaszte_voice_play(&voice, by_block + i, block)
                                      : jivaszte_voice_block(&voice, input + i, block, by_block + i, block);
        keep_least(&best[0], t);
        t = now();
        refused |= jivaszte_perform(order, LENGTH, delay, LOSS, ADVANCE, words, 4 * calls, input, SAMPLES, by_list, SAMPLES,
                                    numbers, SAMPLES, &opening, &written);
        keep_least(&best[1], t);
        refused |= open_voice(&plain, order, LENGTH, delay, LOSS, ADVANCE);
        t = now();
        for (uint32_t i = 0; i < SAMPLES; i += block)
            if (kind == PLAYED)
                render(&plain, NULL, by_c + i, block);
            else
                refused |= plain_block(&plain, input + i, block, by_c + i, block);
        keep_least(&best[2], t);
    }
    int agree = !refused && !memcmp(by_block, by_list, sizeof by_list) && !memcmp(by_block, by_c, sizeof by_c);
    printf("| %u | %s | %u | %.0f | %.0f | %.0f | %.2f | %.2f |%s\n", order, names[kind], block, best[0] / calls,
           best[1] / calls, best[2] / calls, best[1] / best[0], best[2] / best[0], agree ? "" : " SAMPLES DIFFER");
    return agree;
}

int main(void)
{
    static const uint32_t blocks[] = { 1, 16, 64, 1024 };
    int agree = 1;
    printf("| order | input | block | voice, ns | list, ns | C, ns | list | C |\n|---|---|---|---|---|---|---|---|\n");
    for (uint32_t order = 1; order <= 3; order++)
        for (int kind = 0; kind < KINDS; kind++)
            for (size_t i = 0; i < sizeof blocks / sizeof blocks[0]; i++)
                agree &= row(order, kind, blocks[i]);
    return !agree;
}
