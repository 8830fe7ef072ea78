/* A take that is stored and resumed: two voices take the same calls; one of them is stored after every third block and
   loaded into other memory, while a pluck sounds and while a change waits too. Both must return the same numbers and put
   out the same samples. Prints examples/resume.txt, as resume.rs does. */
#include <jivaszte.h>
#include <stdio.h>
#include <string.h>

enum { BLOCK = 50, BLOCKS = 24, SAMPLES = BLOCK * BLOCKS };

/* The calls that are made before a block. */
static uint32_t make(jivaszte_voice *voice, int block)
{
    switch (block) {
    case 0: return jivaszte_voice_pluck(voice, 200, 170, 1);
    case 6: return jivaszte_voice_announce(voice, 2, 88, 8000);
    case 12: return jivaszte_voice_ask(voice, 3, 80, 12000);
    case 14: return jivaszte_voice_commit(voice);
    case 18: return jivaszte_voice_loss(voice, 60000);
    default: return JIVASZTE_DONE;
    }
}

/* Stores a voice, and goes on with the one that is loaded. */
static uint32_t move(jivaszte_voice *voice, int block)
{
    static uint8_t bytes[JIVASZTE_STORED_MOST];
    uint32_t length, delay, loss;
    size_t count;
    uint32_t refusal = jivaszte_voice_store(voice, bytes, sizeof bytes, &count);
    refusal |= jivaszte_panel(bytes, count, &length, &delay, &loss);
    memset(voice, 90, sizeof *voice);
    refusal |= jivaszte_voice_load(voice, bytes, count);
    printf("after block %d: %zu bytes, bit map %u; length %u, delay %u, loss %u; %u samples to wait\n", block, count,
           bytes[0], length, delay, loss, jivaszte_voice_waits(voice));
    return refusal;
}

/* What each refusal leaves. */
static void refuse(void)
{
    static const uint8_t loss[] = { 2, 0, 0, 1, 0 };
    jivaszte_voice voice;
    uint8_t bytes[13] = { 77 };
    uint32_t length, delay, gain, refusal;
    size_t count = 7;
    jivaszte_voice_open(&voice, 1, 99, 2979, 65535, 64);
    refusal = jivaszte_voice_store(&voice, bytes, sizeof bytes, &count);
    printf("a slice too short: %u, length %zu, first byte %u\n", refusal, count, bytes[0]);
    for (size_t n = 0; n <= sizeof loss; n++) {
        refusal = jivaszte_voice_load(&voice, loss, n);
        printf("%zu bytes: %u %u,", n, refusal, jivaszte_panel(loss, n, &length, &delay, &gain));
        refusal = jivaszte_voice_store(&voice, bytes, sizeof bytes, &count);
        printf(" shown %u %u %u, stored again %u %zu %u\n", length, delay, gain, refusal, count, bytes[0]);
    }
}

int main(void)
{
    static jivaszte_voice whole, moved;
    static int32_t outputs[2][SAMPLES];
    uint32_t wrong = jivaszte_voice_open(&whole, 1, 99, 2979, 65535, 64);
    moved = whole;
    for (int block = 0; block < BLOCKS; block++) {
        uint32_t number = make(&whole, block);
        wrong |= number | (make(&moved, block) ^ number);
        wrong |= jivaszte_voice_play(&whole, outputs[0] + BLOCK * block, BLOCK);
        wrong |= jivaszte_voice_play(&moved, outputs[1] + BLOCK * block, BLOCK);
        if (block % 3 == 0)
            wrong |= move(&moved, block);
    }
    if (wrong || memcmp(outputs[0], outputs[1], sizeof outputs[0])) {
        fprintf(stderr, "the stored voice does not go on\n");
        return 1;
    }
    int64_t sum = 0;
    for (size_t i = 0; i < SAMPLES; i++)
        sum += (int64_t)(i + 1) * outputs[1][i];
    printf("%d samples as if never stopped, the sum of each times its number: %lld\n", SAMPLES, (long long)sum);
    refuse();
    return 0;
}
