/* The lists of calls that bench.c times, made for jivaszte_perform and for plain C alike: scores have no input, and can
   neither ask nor change the order. */
#include "../include/jivaszte.h"
#include "bench.h"
#include "plain.h"

enum { CALLS = 2 + 3 * (SAMPLES / LEAST_WAIT), ADVANCE = 64, QUIET = 999, LOUD = 4194303 };

static uint32_t words[4 * CALLS], numbers[2][CALLS], list_order;
static size_t count;
static int32_t silence[SAMPLES], quiet[SAMPLES], loud[SAMPLES];
static const int32_t *input;

/* Samples without a pattern, from -most to most. */
static void make_noise(int32_t *samples, int32_t most)
{
    uint32_t state = 1;
    for (size_t i = 0; i < SAMPLES; i++) {
        state = 1664525 * state + 1013904223;
        samples[i] = (int32_t)((state >> 8) % (2 * most + 1)) - most;
    }
}

static void add(uint32_t kind, uint32_t a, uint32_t b, uint32_t c)
{
    const uint32_t call[] = { kind, a, b, c };
    for (int k = 0; k < 4; k++)
        words[count++] = call[k];
}

void make_list(const Row *r)
{
    static const uint32_t kinds[] = { 0, JIVASZTE_CALL_ANNOUNCE, JIVASZTE_CALL_INSTANT, JIVASZTE_CALL_ASK };
    list_order = r->order;
    count = 0;
    make_noise(quiet, QUIET);
    make_noise(loud, LOUD);
    input = r->group == FED ? quiet : r->group == NOISE ? loud : silence;
    if (r->group == NOISE)
        add(JIVASZTE_CALL_LOSS, 0, 0, 0);
    else
        add(JIVASZTE_CALL_PLUCK, 255, 2048, 0);
    int other = 1;
    for (size_t done = 0; done + r->wait <= SAMPLES; done += r->wait, other = !other) {
        uint32_t named = other ? r->to : r->order;
        if (r->change != NO_CHANGE)
            add(kinds[r->change], named, lengths[other], delays[named - 1][other]);
        add(JIVASZTE_CALL_BLOCK, r->wait, r->wait, 0);
        if (r->change == ASKED_CHANGE)
            add(JIVASZTE_CALL_COMMIT, 0, 0, 0);
    }
}

void perform_list(int which, int32_t *output, Played *p)
{
    uint32_t opening;
    p->refusal = (which ? jivaszte_perform : plain_perform)(
        list_order, lengths[0], delays[list_order - 1][0], 65535, ADVANCE, words, count, input, SAMPLES, output,
        SAMPLES, numbers[which], CALLS, &opening, &p->written);
    p->place = opening;
    for (size_t i = 0; i < count / 4; i++)
        p->place += numbers[which][i];
}
