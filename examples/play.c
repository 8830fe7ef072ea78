/* Plays a score in C: reads its bytes from standard input, prints each sample on a line, then `end` and what the run
   returned, as the program of crates/player does. Words of a refusal go to standard error. `play NAME` writes the samples
   to the file NAME too, as a WAV of 44,100 samples a second. */
#include <jivaszte.h>
#include <stdio.h>

static uint8_t score[32768];
static int32_t output[16384];
static uint8_t file[JIVASZTE_WAV_SIZE(16384)];

/* 0 where the file is written whole. */
static int save(const char *name, size_t samples)
{
    size_t bytes;
    uint32_t refusal = jivaszte_wav_write(44100, output, samples, file, sizeof file, &bytes);
    if (refusal != JIVASZTE_DONE) {
        fprintf(stderr, "%s: %s\n", name, jivaszte_words(refusal));
        return 1;
    }
    FILE *to = fopen(name, "wb");
    if (to == NULL || fwrite(file, 1, bytes, to) != bytes || fclose(to) != 0) {
        perror(name);
        return 1;
    }
    return 0;
}

int main(int count, char **names)
{
    size_t length = fread(score, 1, sizeof score, stdin), place, written;
    uint32_t refusal = jivaszte_run(score, length, output, sizeof output / sizeof output[0], &place, &written);
    for (size_t i = 0; i < written; i++)
        printf("%d\n", output[i]);
    printf("end %u %zu %zu\n", refusal, place, written);
    if (refusal != JIVASZTE_DONE)
        fprintf(stderr, "record %zu: %s\n", place, jivaszte_words(refusal));
    return count > 1 ? save(names[1], written) : 0;
}
