/* The merge of two scores of plucks and losses, timed by the record: with waits of 1, of 65,535, and with twice the
   records. Time grows as the sum of the lengths, whatever the waits are. */
#include "../include/jivaszte.h"
#include "bench.h"

enum { RECORDS = 1 << 12, BYTES = 8 + 2 * RECORDS * 5 };

static uint8_t scores[2][BYTES], merge[4 * BYTES];

/* A score of so many records, each with a wait, and a pluck or a loss. */
static size_t make(uint8_t *at, size_t records, uint32_t wait, int plucks)
{
    static const uint8_t header[8] = { 1, 64, 50, 0, 0, 16, 232, 253 };
    uint8_t *start = at;
    for (int i = 0; i < 8; i++)
        *at++ = header[i];
    for (size_t i = 0; i < records; i++) {
        *at++ = plucks ? JIVASZTE_HAS_WAIT | JIVASZTE_HAS_AMPLITUDE : JIVASZTE_HAS_WAIT | JIVASZTE_HAS_LOSS;
        *at++ = wait & 255;
        *at++ = wait >> 8;
        *at++ = 200;
        *at++ = 0;
    }
    return at - start;
}

int time_merge(int kind, double *best)
{
    size_t records = kind == 2 ? 2 * RECORDS : RECORDS, length;
    uint32_t wait = kind == 1 ? 65535 : 1;
    size_t n = make(scores[0], records, wait, 1), m = make(scores[1], records, wait, 0);
    double from = seconds();
    uint32_t refusal = jivaszte_merge(scores[0], n, scores[1], m, merge, sizeof merge, &length);
    double took = (seconds() - from) / (2 * records);
    *best = *best == 0 || took < *best ? took : *best;
    /* a pluck has its count written out; a loss of the same sample waits 0, and has no wait */
    return refusal == JIVASZTE_DONE && length == 8 + records * (7 + 3);
}
