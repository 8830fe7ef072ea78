/* Frames: cut wherever something falls due, and into pieces that fit the arrays here. */
#include "instrument.h"
#include <math.h>

static const float full = 8388607;

/* A refused block would stop the string, so that nothing outside goes in. */
static int32_t sample(float x)
{
    const float inside = x >= -1 ? (x <= 1 ? x : 1) : x < -1 ? -1 : 0;
    return (int32_t)lrintf(full * inside);
}

static void piece(instrument *i, const float *in, float *left, float *right, uint32_t n)
{
    int32_t heard[CHUNK], out[CHUNK], sum[2][CHUNK] = { { 0 } };
    for (uint32_t t = 0; in && t < n; t++)
        heard[t] = sample(in[t]);
    for (uint32_t k = 0; k < STRINGS; k++) {
        const uint32_t refusal = in ? jivaszte_voice_block(&i->voice[k], heard, n, out, n)
                                    : jivaszte_voice_play(&i->voice[k], out, n);
        instrument_count(i, refusal);
        int32_t *side = sum[k >= STRINGS / 2];
        for (uint32_t t = 0; refusal == JIVASZTE_DONE && t < n; t++)
            side[t] += out[t];
    }
    for (uint32_t t = 0; t < n; t++) {
        left[t] = (float)sum[0][t] / full;
        right[t] = (float)sum[1][t] / full;
    }
    i->now += n;
}

void instrument_frames(instrument *i, const settings *set, const float *in, float *left, float *right, uint32_t count)
{
    for (uint32_t at = 0; at < count;) {
        const uint32_t rest = count - at, n = instrument_settle(i, set, rest < CHUNK ? rest : CHUNK);
        piece(i, in ? in + at : NULL, left + at, right + at, n);
        at += n;
    }
}
