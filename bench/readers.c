/* Record readers by turns over the same records: plain C, the reader as it was before document 02's L8, and the proved
   one. An earlier archive takes the second place where bench/run is given one. */
#include "../include/jivaszte.h"
#include "bench.h"
#include "plain.h"
#include <string.h>

enum { RECORDS = 1 << 14, RUNS = 15 };

typedef size_t Reader(const uint8_t *, size_t, uint32_t *);

#ifdef EARLIER
Reader earlier_record;
#else
#define earlier_record record_before
#endif

static Reader *const readers[READERS] = { plain_record, earlier_record, jivaszte_record };
static uint8_t score[16 * RECORDS];

/* A record with a bit map, fields from a fixed sequence. */
static uint8_t *put_record(uint8_t *at, uint8_t map, uint32_t *state)
{
    *at++ = map;
    for (int k = 0; k < 7; k++)
        if (map >> k & 1) {
            *state = 1664525 * *state + 1013904223;
            *at++ = *state >> 16 & 255;
            *at++ = *state >> 24;
        }
    return at;
}

static int well_formed(uint8_t map) { return !((map & 96) && !(map & 16)) && !((map & 128) && !(map & 6)); }

/* Every well-formed bit map in turn, as likely as each other in a sequence without a pattern, or as in a tune: a pluck
   and a wait, a slide of announced changes, a loss, an instant change with a pluck. */
static size_t make(int kind)
{
    static const uint8_t tune[] = { 49, 1, 7, 7, 7, 7, 7, 7, 1, 17, 1, 9, 49, 1, 151, 1 };
    uint8_t *at = score, map = 0;
    uint32_t state = 1;
    for (size_t i = 0; i < RECORDS; i++) {
        if (kind == 2)
            map = tune[i % sizeof tune];
        else
            do {
                state = 1664525 * state + 1013904223;
                map = kind == 1 ? state >> 24 : map + 1u;
            } while (!well_formed(map));
        at = put_record(at, map, &state);
    }
    return at - score;
}

/* How long a reader takes for all the records; sum is of their waits, which a run looks at first. */
static double once(Reader *read, size_t length, size_t *sum)
{
    uint32_t fields[JIVASZTE_FIELDS] = { 0 };
    size_t waits = 0;
    double from = seconds();
    for (size_t at = 0, took; at < length && (took = read(score + at, length - at, fields)) > 0; at += took)
        waits += fields[JIVASZTE_FIELD_WAIT];
    *sum = waits;
    return seconds() - from;
}

/* All readers give the same numbers, record by record, and read to the end. */
static int same(size_t length)
{
    for (size_t at = 0, took; at < length; at += took) {
        uint32_t fields[READERS][JIVASZTE_FIELDS];
        took = readers[0](score + at, length - at, fields[0]);
        for (int which = 1; which < READERS; which++)
            if (readers[which](score + at, length - at, fields[which]) != took ||
                memcmp(fields[which], fields[0], sizeof fields[0]))
                return 0;
        if (took == 0)
            return 0;
    }
    return 1;
}

int time_readers(int kind, double best[READERS])
{
    size_t length = make(kind), sum[READERS];
    for (int i = 0; i < RUNS * READERS; i++) {
        int which = (i + i / READERS) % READERS;
        double t = once(readers[which], length, &sum[which]) / RECORDS;
        best[which] = best[which] == 0 || t < best[which] ? t : best[which];
    }
    return sum[0] == sum[1] && sum[0] == sum[2] && same(length);
}
