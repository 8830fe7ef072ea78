/* Lists of calls in plain C, on the voice of plain.c: what jivaszte_perform does. */
#include "plain.h"
#include "../include/jivaszte.h"

/* Whether the words are whole calls of known kinds, with input, output and places for numbers enough. */
static int formed(const uint32_t *words, size_t count, size_t samples, size_t room, size_t places)
{
    if (count % 4 != 0 || count / 4 > places)
        return 0;
    for (const uint32_t *w = words; w < words + count; w += 4) {
        if (w[0] > JIVASZTE_CALL_WITHDRAW)
            return 0;
        if (w[0] != JIVASZTE_CALL_BLOCK)
            continue;
        if (w[1] > samples || w[2] > room)
            return 0;
        samples -= w[1];
        room -= w[2];
    }
    return 1;
}

/* Whether anything comes in; an input that sounds seldom starts with 0. Each scan by itself was faster than both in one
   loop, and than both in the block, where gcc puts them together. */
static __attribute__((noinline)) int any(const int32_t *input, uint32_t samples)
{
    if (samples > 0 && input[0] != 0)
        return 1;
    int32_t any = 0;
    for (uint32_t i = 0; i < samples; i++)
        any |= input[i];
    return any != 0;
}

/* Whether a sample is outside the range. */
static __attribute__((noinline)) int loud(const int32_t *input, uint32_t samples)
{
    int loud = 0;
    for (uint32_t i = 0; i < samples; i++)
        loud |= input[i] < -MOST || input[i] > MOST;
    return loud;
}

uint32_t plain_block(Voice *v, const int32_t *input, uint32_t samples, int32_t *output, uint32_t room)
{
    if (samples != room)
        return 9;
    if (!any(input, samples))
        input = NULL;
    else if (loud(input, samples))
        return 10;
    render(v, input, output, samples);
    return 0;
}

static uint32_t call(Voice *v, const uint32_t *w, const int32_t *input, int32_t *output)
{
    switch (w[0]) {
    case JIVASZTE_CALL_BLOCK: return plain_block(v, input, w[1], output, w[2]);
    case JIVASZTE_CALL_LOSS: return set_loss(v, w[1]);
    case JIVASZTE_CALL_PLUCK: return pluck(v, w[1], w[2], w[3]);
    case JIVASZTE_CALL_ANNOUNCE: return change(v, w[1], w[2], w[3], ANNOUNCED);
    case JIVASZTE_CALL_INSTANT: return change(v, w[1], w[2], w[3], INSTANT);
    case JIVASZTE_CALL_ASK: return change(v, w[1], w[2], w[3], ASKED);
    case JIVASZTE_CALL_COMMIT: return commit(v);
    default: return withdraw(v);
    }
}

uint32_t plain_perform(uint32_t order, uint32_t length, uint32_t delay, uint32_t loss, uint32_t advance,
                       const uint32_t *words, size_t count, const int32_t *input, size_t samples, int32_t *output,
                       size_t room, uint32_t *numbers, size_t places, uint32_t *opening, size_t *written)
{
    Voice v;
    *opening = 0;
    *written = 0;
    if (!formed(words, count, samples, room, places))
        return JIVASZTE_LIST_FORM;
    *opening = open_voice(&v, order, length, delay, loss, advance);
    for (const uint32_t *w = words; w < words + count; w += 4, numbers++) {
        *numbers = call(&v, w, input, output + *written);
        if (w[0] != JIVASZTE_CALL_BLOCK)
            continue;
        input += w[1];
        *written += *numbers ? 0 : w[2];
    }
    return JIVASZTE_DONE;
}
