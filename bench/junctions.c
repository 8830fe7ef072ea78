/* A tube junction, timed sample by sample through the library and in plain C. */
#include "../include/jivaszte.h"
#include "bench.h"
#include "plain.h"
#include <string.h>

enum { COUNT = 1 << 15, ADVANCE = 64 };

static int32_t input[2][COUNT], outputs[2][2][COUNT];

/* Noise of half the full range, which no branch foretells. */
static void make_input(void)
{
    uint32_t state = 1;
    for (int i = 0; i < 2 * COUNT; i++) {
        state = 1664525 * state + 1013904223;
        input[i % 2][i / 2] = (int32_t)(state >> 8) % 4194304 - 2097152;
    }
}

/* All numbers that the calls returned, added up. */
static uint32_t run(int which, int moves, int32_t out[2][COUNT])
{
    static jivaszte_junction proved;
    static Tube plain;
    uint32_t sum =
        which ? jivaszte_junction_open(&proved, 3, 2, 3000, ADVANCE) : plain_junction_open(&plain, 3, 2, 3000, ADVANCE);
    for (int i = 0; i < COUNT; i++) {
        if (moves && i % ADVANCE == 0) {
            uint32_t d = i / ADVANCE % 2 ? 3000 : 5000;
            sum += which ? jivaszte_junction_move(&proved, d) : plain_junction_move(&plain, d);
        }
        sum += which ? jivaszte_junction_sample(&proved, input[0][i], input[1][i], &out[0][i], &out[1][i])
                     : plain_junction_sample(&plain, input[0][i], input[1][i], &out[0][i], &out[1][i]);
    }
    return sum;
}

int time_junction(int moves, double best[2])
{
    if (input[0][0] == 0)
        make_input();
    memset(outputs, 90, sizeof outputs);
    uint32_t refused = 0;
    for (int k = 0; k < 6; k++) {
        double from = seconds();
        refused += run(k % 2, moves, outputs[k % 2]);
        double t = (seconds() - from) / COUNT;
        best[k % 2] = best[k % 2] == 0 || t < best[k % 2] ? t : best[k % 2];
    }
    return refused == 0 && memcmp(outputs[0], outputs[1], sizeof outputs[0]) == 0;
}
