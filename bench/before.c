/* The record reader as it was before document 02's L8, written out in C as the proved one was: the place of each field,
   and two bytes picked there where its bit stands. */
#include "plain.h"

static uint32_t bit(uint32_t map, uint32_t unit) { return map / unit % 2; }

static size_t after(uint32_t map, uint32_t unit, size_t at) { return at + 2 * (size_t)bit(map, unit); }

static uint32_t field(const uint8_t *s, uint32_t map, uint32_t unit, size_t at)
{
    if (bit(map, unit) == 0)
        return 0;
    return word(s + at);
}

static uint32_t without(uint32_t bits, uint32_t needed) { return needed == 0 ? bits : 0; }

static size_t refuse(uint32_t fields[9], uint32_t number)
{
    for (int i = 1; i < 9; i++)
        fields[i] = 0;
    fields[0] = number;
    return 0;
}

size_t record_before(const uint8_t *s, size_t n, uint32_t fields[9])
{
    if (n == 0)
        return refuse(fields, 14);
    uint32_t map = s[0];
    size_t length = after(map, 1, 1), delay = after(map, 2, length), loss = after(map, 4, delay);
    size_t amplitude = after(map, 8, loss), count = after(map, 16, amplitude), seed = after(map, 32, count);
    size_t bytes = after(map, 64, seed);
    if (n < bytes)
        return refuse(fields, 14);
    if (without(bit(map, 32) + bit(map, 64), bit(map, 16)) + without(bit(map, 128), bit(map, 2) + bit(map, 4)))
        return refuse(fields, 15);
    fields[0] = 0;
    fields[1] = map;
    fields[2] = field(s, map, 1, 1);
    fields[3] = field(s, map, 2, length);
    fields[4] = field(s, map, 4, delay);
    fields[5] = field(s, map, 8, loss);
    fields[6] = field(s, map, 16, amplitude);
    fields[7] = field(s, map, 32, count);
    fields[8] = field(s, map, 64, seed);
    return bytes;
}
