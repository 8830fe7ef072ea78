/* A voice stored, loaded and shown on the panel, timed through the library and in plain C: with a line that sounds, so
   that all of it is stored. */
#include "../include/jivaszte.h"
#include "bench.h"
#include "plain.h"
#include <string.h>

enum { TIMES = 100, ADVANCE = 64, PLAYED = 3000 };

static uint8_t bytes[2][JIVASZTE_STORED_MOST];
static size_t lengths_of[2];
static uint32_t shown[2][3];

/* All numbers that the calls returned, added up. */
static uint32_t run(int which, int kind, jivaszte_voice *proved, Voice *plain)
{
    uint32_t sum = 0, *to = shown[which];
    uint8_t *at = bytes[which];
    size_t *length = &lengths_of[which];
    for (int i = 0; i < TIMES; i++)
        if (kind == 0)
            sum += which ? jivaszte_voice_store(proved, at, sizeof bytes[0], length) : plain_store(plain, at, sizeof bytes[0], length);
        else if (kind == 1)
            sum += which ? jivaszte_voice_load(proved, at, *length) : plain_load(plain, at, *length);
        else
            sum += which ? jivaszte_panel(at, *length, &to[0], &to[1], &to[2])
                         : plain_panel(at, *length, &to[0], &to[1], &to[2]);
    return sum;
}

int time_stored(int kind, double best[2])
{
    static jivaszte_voice proved;
    static Voice plain;
    static int32_t output[PLAYED];
    uint32_t refused = jivaszte_voice_open(&proved, 2, 99, 8000, 65000, ADVANCE) + open_voice(&plain, 2, 99, 8000, 65000, ADVANCE);
    refused += jivaszte_voice_pluck(&proved, 200, 2048, 1) + pluck(&plain, 200, 2048, 1);
    refused += jivaszte_voice_play(&proved, output, PLAYED);
    render(&plain, NULL, output, PLAYED);
    refused += jivaszte_voice_ask(&proved, 3, 90, 12000) + change(&plain, 3, 90, 12000, ASKED);
    refused += run(0, 0, &proved, &plain) + run(1, 0, &proved, &plain);
    for (int k = 0; k < 6; k++) {
        double from = seconds();
        refused += run(k % 2, kind, &proved, &plain);
        double t = (seconds() - from) / TIMES;
        best[k % 2] = best[k % 2] == 0 || t < best[k % 2] ? t : best[k % 2];
    }
    refused += run(0, 0, &proved, &plain) + run(1, 0, &proved, &plain);
    return refused == 0 && lengths_of[0] == lengths_of[1] && memcmp(bytes[0], bytes[1], lengths_of[0]) == 0 &&
           memcmp(shown[0], shown[1], sizeof shown[0]) == 0;
}
