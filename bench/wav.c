/* WAV files of one channel and 24 bits in plain C. */
#include "plain.h"
#include <string.h>

static void put32(uint8_t *at, uint32_t n)
{
    for (int k = 0; k < 4; k++)
        at[k] = n >> 8 * k;
}

static uint32_t get32(const uint8_t *at) { return at[0] | at[1] << 8 | at[2] << 16 | (uint32_t)at[3] << 24; }

static void header(uint8_t *file, uint32_t rate, uint32_t n)
{
    memcpy(file, "RIFF....WAVEfmt \20\0\0\0\1\0\1\0........\3\0\30\0data", 40);
    put32(file + 4, 36 + 3 * n + n % 2);
    put32(file + 24, rate);
    put32(file + 28, 3 * rate);
    put32(file + 40, 3 * n);
}

uint32_t plain_wav_write(uint32_t rate, const int32_t *samples, size_t n, uint8_t *file, size_t room, size_t *bytes)
{
    *bytes = 0;
    if (outside(rate, 8000, 192000))
        return 17;
    if (n > 1000000 || 44 + 3 * n + n % 2 > room)
        return 18;
    int loud = 0;
    for (size_t i = 0; i < n; i++)
        loud |= samples[i] < -MOST || samples[i] > MOST;
    if (loud)
        return 10;
    header(file, rate, n);
    uint8_t *at = file + 44;
    for (size_t i = 0; i < n; i++, at += 3) {
        at[0] = samples[i];
        at[1] = samples[i] >> 8;
        at[2] = samples[i] >> 16;
    }
    if (n % 2)
        *at++ = 0;
    *bytes = at - file;
    return 0;
}

uint32_t plain_wav_read(const uint8_t *file, size_t length, int32_t *samples, size_t room, uint32_t *rate, size_t *count)
{
    *rate = *count = 0;
    if (length < 44)
        return 19;
    uint8_t expected[44];
    uint32_t fs = get32(file + 24);
    size_t n = get32(file + 40) / 3;
    header(expected, fs, n);
    if (fs > UINT32_MAX / 3 || 36 + 3 * n + n % 2 > UINT32_MAX || memcmp(file, expected, 44))
        return 19;
    if (length != 44 + 3 * n + n % 2 || (n % 2 && file[length - 1]))
        return 19;
    if (outside(fs, 8000, 192000))
        return 17;
    if (n > 1000000 || n > room)
        return 18;
    const uint8_t *at = file + 44;
    for (size_t i = 0; i < n; i++, at += 3) {
        int32_t x = (int32_t)((uint32_t)at[0] << 8 | (uint32_t)at[1] << 16 | (uint32_t)at[2] << 24) >> 8;
        samples[i] = x < -MOST ? -MOST : x;
    }
    *rate = fs;
    *count = n;
    return 0;
}
