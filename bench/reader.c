/* The score of document 01 in plain C: its records, and the run, on the voice of plain.c. */
#include "plain.h"
#include <string.h>

size_t plain_record(const uint8_t *s, size_t n, uint32_t fields[9])
{
    memset(fields, 0, 9 * sizeof fields[0]);
    uint32_t map = n ? s[0] : 0;
    size_t bytes = 1 + 2 * __builtin_popcount(map & 127);
    if (n < bytes) {
        fields[0] = 14;
        return 0;
    }
    if (((map & 96) && !(map & 16)) || ((map & 128) && !(map & 6))) {
        fields[0] = 15;
        return 0;
    }
    fields[1] = map;
    const uint8_t *p = s + 1;
    for (int k = 0; k < 7; k++)
        if (map >> k & 1) {
            fields[k + 2] = word(p);
            p += 2;
        }
    return bytes;
}

static uint32_t act(Voice *v, const uint32_t r[9])
{
    uint32_t map = r[1];
    if (map & 8)
        v->loss = r[5];
    if (map & 6) {
        uint32_t code = change(v, v->filter.order, map & 2 ? r[3] : v->filter.length,
                               map & 4 ? r[4] : v->filter.delay, map >> 7 ? INSTANT : ANNOUNCED);
        if (code)
            return code;
    }
    return map & 16 ? pluck(v, r[6], map & 32 ? r[7] : 100, r[8]) : 0;
}

uint32_t plain_run(const uint8_t *score, size_t bytes, int32_t *output, size_t room, size_t *place, size_t *written)
{
    Voice v;
    uint32_t r[9];
    *place = *written = 0;
    if (bytes < 8)
        return 14;
    uint32_t code = open_voice(&v, score[0], word(score + 2), word(score + 4), word(score + 6), score[1]);
    if (code)
        return code;
    for (size_t at = 8; at < bytes; ++*place) {
        size_t took = plain_record(score + at, bytes - at, r);
        if (r[0])
            return r[0];
        if (room - *written < r[2])
            return 16;
        render(&v, NULL, output + *written, r[2]);
        *written += r[2];
        if ((code = act(&v, r)))
            return code;
        at += took;
    }
    return 0;
}
