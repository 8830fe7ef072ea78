/* Six strings in one instrument: opened at different moments, one refused, retuned together, one loaded from what another
   stored, mixed with an input that makes the sum clip. Six voices that get the same calls and the same blocks, summed and
   clipped here, must give the same samples. Prints examples/strings.txt, as strings.rs does. */
#include <jivaszte.h>
#include <stdio.h>
#include <string.h>

enum { STRINGS = JIVASZTE_STRINGS, BLOCK = 100, BLOCKS = 30 };

static jivaszte_instrument instrument;
static jivaszte_voice voices[STRINGS];

static int32_t clipped(int32_t u) { return u > 8388607 ? 8388607 : u < -8388607 ? -8388607 : u; }

/* Opens string k, of order k / 2 + 1, on both; the last one names a length that is refused. */
static void open_string(uint32_t k)
{
    uint32_t order = k / 2 + 1, length = k == 5 ? 4096 : 99 + 20 * k, delay = 4096 * order + 300 * k - 1000;
    uint32_t one = jivaszte_instrument_open(&instrument, k, order, length, delay, 65000, 64);
    uint32_t other = jivaszte_voice_open(&voices[k], order, length, delay, 65000, 64);
    printf("open %u: %u, %u\n", k, one, other);
    one = jivaszte_instrument_pluck(&instrument, k, 255, 100, k + 1);
    other = jivaszte_voice_pluck(&voices[k], 255, 100, k + 1);
    printf("pluck %u: %u, %u\n", k, one, other);
}

/* Announces a change on strings 0, 2 and 4, which all take effect at one moment. */
static void retune(void)
{
    for (uint32_t k = 0; k < STRINGS; k += 2) {
        uint32_t order = k / 2 + 1;
        uint32_t one = jivaszte_instrument_announce(&instrument, k, order, 80 + k, 4096 * order);
        uint32_t other = jivaszte_voice_announce(&voices[k], order, 80 + k, 4096 * order);
        printf("announce %u: %u, %u\n", k, one, other);
    }
}

/* Stores string 0 and its voice, and loads string 5 and its voice from those bytes. */
static void resume(void)
{
    static uint8_t bytes[JIVASZTE_STORED_MOST], others[JIVASZTE_STORED_MOST];
    size_t length, other_length;
    uint32_t one = jivaszte_instrument_store(&instrument, 0, bytes, sizeof bytes, &length);
    uint32_t other = jivaszte_voice_store(&voices[0], others, sizeof others, &other_length);
    int alike = length == other_length && memcmp(bytes, others, length) == 0;
    printf("store 0: %u, %u, %s bytes\n", one, other, alike ? "equal" : "other");
    one = jivaszte_instrument_load(&instrument, 5, bytes, length);
    other = jivaszte_voice_load(&voices[5], bytes, length);
    printf("load 5: %u, %u\n", one, other);
}

int main(void)
{
    int32_t input[BLOCK], mix[BLOCK], part[BLOCK], sums[BLOCK];
    uint32_t alike = 0, clips = 0, count = 1;
    jivaszte_instrument_reset(&instrument);
    for (int k = 0; k < STRINGS; k++)
        jivaszte_voice_open(&voices[k], 0, 0, 0, 0, 0);
    for (uint32_t b = 0; b < BLOCKS; b++) {
        if (b < STRINGS)
            open_string(b);
        if (b == 12)
            retune();
        if (b == 16)
            resume();
        for (uint32_t i = 0; i < BLOCK; i++) {
            input[i] = b >= 20 && b < 25 ? (int32_t)(i % 2 ? -8388607 : 8388607) : 0;
            sums[i] = 0;
        }
        uint32_t number = jivaszte_instrument_mix(&instrument, input, BLOCK, mix, BLOCK);
        for (int k = 0; k < STRINGS; k++) {
            number |= jivaszte_voice_block(&voices[k], input, BLOCK, part, BLOCK);
            for (int i = 0; i < BLOCK; i++)
                sums[i] += part[i];
        }
        for (int i = 0; i < BLOCK; i++) {
            alike += number == 0 && mix[i] == clipped(sums[i]);
            clips += sums[i] != clipped(sums[i]);
        }
    }
    printf("mixed: %u of %u samples alike, %s\n", alike, (unsigned)(BLOCK * BLOCKS), clips ? "some clipped" : "none clipped");
    printf("string 6: %u", jivaszte_instrument_pluck(&instrument, 6, 256, 0, 1));
    printf(", %u", jivaszte_instrument_instant(&instrument, 6, 1, 99, 2979, &count));
    printf(" and %u: %s\n", count, jivaszte_words(24));
    return 0;
}
