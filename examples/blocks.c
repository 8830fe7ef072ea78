/* A host's loop: a voice that the program keeps renders blocks of 64 samples, and calls are made between them. The same
   calls as one list, by jivaszte_perform, must return the same numbers and put out the same samples. Prints
   examples/blocks.txt, as blocks.rs does. */
#include <jivaszte.h>
#include <stdio.h>
#include <string.h>

enum { BLOCK = 64, BLOCKS = 32, SAMPLES = BLOCK * BLOCKS };

/* A call as in a list, and the block before which it is made. */
static const struct {
    int before;
    uint32_t call[4];
} plan[] = {
    { 0, { JIVASZTE_CALL_PLUCK, 200, 100, 1 } },
    { 4, { JIVASZTE_CALL_ANNOUNCE, 1, 88, 3000 } },
    { 4, { JIVASZTE_CALL_ASK, 1, 90, 3000 } },
    { 10, { JIVASZTE_CALL_ASK, 2, 90, 8000 } },
    { 10, { JIVASZTE_CALL_COMMIT, 0, 0, 0 } },
    { 12, { JIVASZTE_CALL_COMMIT, 0, 0, 0 } },
    { 16, { JIVASZTE_CALL_LOSS, 64000, 0, 0 } },
    { 20, { JIVASZTE_CALL_INSTANT, 3, 80, 12000 } },
    { 24, { JIVASZTE_CALL_ASK, 1, 99, 2979 } },
    { 25, { JIVASZTE_CALL_WITHDRAW, 0, 0, 0 } },
    { 28, { JIVASZTE_CALL_PLUCK, 256, 100, 2 } },
};
enum { CALLS = sizeof plan / sizeof plan[0] };

static uint32_t make(jivaszte_voice *voice, const uint32_t *c)
{
    uint32_t count;
    switch (c[0]) {
    case JIVASZTE_CALL_LOSS: return jivaszte_voice_loss(voice, c[1]);
    case JIVASZTE_CALL_PLUCK: return jivaszte_voice_pluck(voice, c[1], c[2], c[3]);
    case JIVASZTE_CALL_ANNOUNCE: return jivaszte_voice_announce(voice, c[1], c[2], c[3]);
    case JIVASZTE_CALL_INSTANT: return jivaszte_voice_instant(voice, c[1], c[2], c[3], &count);
    case JIVASZTE_CALL_ASK: return jivaszte_voice_ask(voice, c[1], c[2], c[3]);
    case JIVASZTE_CALL_COMMIT: return jivaszte_voice_commit(voice);
    default: return jivaszte_voice_withdraw(voice);
    }
}

int main(void)
{
    static jivaszte_voice voice;
    static int32_t input[SAMPLES], output[SAMPLES], whole[SAMPLES];
    static uint32_t words[4 * (CALLS + BLOCKS)], numbers[CALLS + BLOCKS], returned[CALLS + BLOCKS];
    size_t made = 0, written, next = 0;
    uint32_t opening, opened = jivaszte_voice_open(&voice, 1, 99, 2979, 65535, 64);

    for (int block = 0; block < BLOCKS; block++) {
        for (; next < CALLS && plan[next].before == block; next++, made++) {
            memcpy(words + 4 * made, plan[next].call, sizeof plan[next].call);
            returned[made] = make(&voice, plan[next].call);
            printf("before block %d, call of kind %u: %u, %u samples to wait\n", block, plan[next].call[0], returned[made],
                   jivaszte_voice_waits(&voice));
        }
        /* every eighth block has an input; the others are played with none */
        int32_t *in = input + BLOCK * block, *out = output + BLOCK * block;
        in[0] = block % 8 == 3 ? 100000 : 0;
        words[4 * made + 1] = words[4 * made + 2] = BLOCK;
        returned[made++] = block % 8 == 3 ? jivaszte_voice_block(&voice, in, BLOCK, out, BLOCK)
                                          : jivaszte_voice_play(&voice, out, BLOCK);
    }

    uint32_t refusal = jivaszte_perform(1, 99, 2979, 65535, 64, words, 4 * made, input, SAMPLES, whole, SAMPLES, numbers,
                                        CALLS + BLOCKS, &opening, &written);
    if (refusal != JIVASZTE_DONE || opening != opened || written != SAMPLES || memcmp(numbers, returned, made * sizeof *numbers) ||
        memcmp(whole, output, sizeof whole)) {
        fprintf(stderr, "the list differs from the calls\n");
        return 1;
    }
    int64_t sum = 0;
    for (size_t i = 0; i < SAMPLES; i++)
        sum += (int64_t)(i + 1) * output[i];
    printf("%d samples as the list has them, the sum of each times its number: %lld\n", SAMPLES, (long long)sum);
    return 0;
}
