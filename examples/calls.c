/* Each routine of include/jivaszte.h called from C, refused too. Prints examples/calls.txt, as calls.rs does. */
#include <jivaszte.h>
#include <stdio.h>
#include <stdlib.h>

/* What a refused call must leave. */
static void zero(int64_t left)
{
    if (left != 0) {
        fprintf(stderr, "a refused call left %lld\n", (long long)left);
        exit(1);
    }
}

static void coefficients(uint32_t order, uint32_t delay)
{
    int32_t a1 = 7, a2 = 7, a3 = 7;
    uint32_t refusal = jivaszte_coefficients(order, delay, &a1, &a2, &a3);
    printf("coefficients %u %u: ", order, delay);
    if (refusal == JIVASZTE_DONE) {
        printf("%d %d %d\n", a1, a2, a3);
    } else {
        printf("refused by %u\n", refusal);
        zero(a1);
        zero(a2);
        zero(a3);
    }
}

static void effective_length(uint32_t order, uint32_t delay, uint32_t threshold)
{
    uint32_t length = 7, refusal = jivaszte_effective_length(order, delay, threshold, &length);
    printf("effective length %u %u %u: ", order, delay, threshold);
    if (refusal == JIVASZTE_DONE) {
        printf("%u\n", length);
    } else {
        printf("refused by %u\n", refusal);
        zero(length);
    }
}

static void least_advance(uint32_t order, uint32_t delay, uint32_t wanted)
{
    uint32_t advance = 7, refusal = jivaszte_least_advance(order, delay, wanted, &advance);
    printf("least advance %u %u %u: ", order, delay, wanted);
    if (refusal == JIVASZTE_DONE) {
        printf("%u\n", advance);
    } else {
        printf("refused by %u\n", refusal);
        zero(advance);
    }
}

static void note(uint32_t order, uint32_t rate, uint32_t number)
{
    uint32_t length = 7, delay = 7, refusal = jivaszte_note(order, rate, number, &length, &delay);
    printf("note %u %u %u: ", order, rate, number);
    if (refusal == JIVASZTE_DONE) {
        printf("%u %u\n", length, delay);
    } else {
        printf("refused by %u\n", refusal);
        zero(length);
        zero(delay);
    }
}

static void record(const char *what, const uint8_t *score, size_t length)
{
    uint32_t fields[JIVASZTE_FIELDS];
    size_t took = jivaszte_record(score, length, fields);
    printf("record %s: takes %zu,", what, took);
    for (int i = 0; i < JIVASZTE_FIELDS; i++)
        printf(" %u", fields[i]);
    printf("\n");
}

static void gather(const uint8_t *bytes, size_t length, size_t start)
{
    printf("gather %zu bytes from %zu: %llu\n", length, start, (unsigned long long)jivaszte_gather(bytes, length, start));
}

/* Two plucks of one voice, after 5 samples and after 7; the bytes behind the header are printed. */
static void merge(size_t room)
{
    static const uint8_t first[] = { 1, 0, 50, 0, 0, 16, 232, 253, 17, 5, 0, 200, 0 };
    static const uint8_t second[] = { 1, 0, 50, 0, 0, 16, 232, 253, 17, 7, 0, 100, 0 };
    uint8_t bytes[32];
    size_t length;
    uint32_t refusal = jivaszte_merge(first, sizeof first, second, sizeof second, bytes, room, &length);
    printf("merge into %zu bytes: %u %zu,", room, refusal, length);
    for (size_t i = 8; i < length; i++)
        printf(" %u", bytes[i]);
    printf("\n");
}

/* A sample before a move and three after it; the third call is refused. */
static void junction(uint32_t left_area, uint32_t right_area, uint32_t delay, uint32_t advance)
{
    static const int32_t in[4][2] = { { 100000, -200000 }, { 30000, 40000 }, { -50000, 60000 }, { 7000, 9000 } };
    jivaszte_junction j;
    printf("junction %u %u %u %u: %u,", left_area, right_area, delay, advance,
           jivaszte_junction_open(&j, left_area, right_area, delay, advance));
    for (int i = 0; i < 4; i++) {
        int32_t right = 7, left = 7;
        uint32_t refusal = jivaszte_junction_sample(&j, in[i][0], in[i][1], &right, &left);
        printf(" %u %d %d", refusal, right, left);
        if (i == 0) {
            uint32_t moved = jivaszte_junction_move(&j, 5000), again = jivaszte_junction_move(&j, 6144);
            refusal = jivaszte_junction_sample(&j, 5, -8388608, &right, &left);
            printf(" %u %u %u %d %d", moved, again, refusal, right, left);
        }
    }
    printf("\n");
}

static void run(const char *what, const uint8_t *score, size_t length, size_t room)
{
    int32_t output[16];
    for (int i = 0; i < 16; i++)
        output[i] = 7;
    size_t place = 7, written = 7;
    uint32_t refusal = jivaszte_run(score, length, output, room, &place, &written);
    printf("run %s: %u %zu %zu,", what, refusal, place, written);
    for (int i = 0; i < 16; i++)
        printf(" %d", output[i]);
    printf("\n");
}

static void perform(const char *what, uint32_t order, uint32_t advance, const uint32_t *words, size_t count)
{
    static const int32_t input[] = { 1000, 0, 0, 0, 0, 0, 0, 0 };
    int32_t output[12];
    uint32_t numbers[6], opening = 7;
    for (int i = 0; i < 12; i++)
        output[i] = 7;
    for (int i = 0; i < 6; i++)
        numbers[i] = 77;
    size_t written = 7;
    uint32_t refusal = jivaszte_perform(order, 3, 4096, 32768, advance, words, count, input, 8, output, 12, numbers, 6,
                                        &opening, &written);
    printf("perform %s: %u %u %zu,", what, refusal, opening, written);
    for (int i = 0; i < 6; i++)
        printf(" %u", numbers[i]);
    printf(",");
    for (int i = 0; i < 12; i++)
        printf(" %d", output[i]);
    printf("\n");
}

static void wav_write(uint32_t rate, const int32_t *samples, size_t count, size_t room)
{
    uint8_t file[56];
    for (int i = 0; i < 56; i++)
        file[i] = 77;
    size_t bytes = 7;
    uint32_t refusal = jivaszte_wav_write(rate, samples, count, file, room, &bytes);
    printf("wav of %zu samples at %u in %zu bytes: %u %zu,", count, rate, room, refusal, bytes);
    for (int i = 0; i < 56; i++)
        printf(" %02x", file[i]);
    printf("\n");
}

static void wav_read(const char *what, const uint8_t *file, size_t length, size_t room)
{
    int32_t samples[4] = { 77, 77, 77, 77 };
    uint32_t rate = 7;
    size_t count = 7;
    uint32_t refusal = jivaszte_wav_read(file, length, samples, room, &rate, &count);
    printf("wav read %s: %u %u %zu,", what, refusal, rate, count);
    for (int i = 0; i < 4; i++)
        printf(" %d", samples[i]);
    printf("\n");
}

int main(void)
{
    static const int32_t samples[] = { 8388607, -8388607, 8388608 };
    static const uint8_t file[] = {
        'R', 'I', 'F', 'F', 46, 0, 0, 0, 'W', 'A', 'V', 'E', 'f', 'm', 't', ' ', 16, 0, 0, 0, 1, 0, 1, 0, 64, 31, 0, 0,
        192, 93, 0, 0, 3, 0, 24, 0, 'd', 'a', 't', 'a', 9, 0, 0, 0, 255, 255, 127, 0, 0, 128, 1, 0, 0, 0,
    };
    static const uint8_t paper[] = { 1, 0, 3, 0, 0, 16, 0, 128, 48, 1, 0, 1, 0, 1, 10, 0 };
    static const uint8_t third[] = { 3, 0, 3, 0, 1, 40, 0, 128, 48, 1, 0, 1, 0, 1, 10, 0 };
    static const uint8_t fourth[] = { 4, 0, 3, 0, 0, 16, 0, 128, 1, 10, 0 };
    static const uint8_t waits[] = { 1, 4, 3, 0, 0, 16, 0, 128, 1, 2, 0, 2, 5, 0, 3, 3, 0, 6, 0 };
    static const uint8_t every[] = { 255, 1, 2, 3, 4, 5, 6, 7, 8, 9, 10, 11, 12, 13, 14, 99 };
    static const uint8_t seed[] = { 64, 1, 2 };
    static const uint32_t calls[] = {
        JIVASZTE_CALL_BLOCK, 6, 6, 0, JIVASZTE_CALL_BLOCK, 1, 2, 0, JIVASZTE_CALL_LOSS, 65536, 0, 0,
        JIVASZTE_CALL_INSTANT, 1, 1, 4096, JIVASZTE_CALL_ANNOUNCE, 1, 2, 6145, JIVASZTE_CALL_BLOCK, 1, 1, 0,
    };
    static const uint32_t asks[] = {
        JIVASZTE_CALL_BLOCK, 2, 2, 0, JIVASZTE_CALL_ASK, 1, 2, 6144, JIVASZTE_CALL_COMMIT, 0, 0, 0,
        JIVASZTE_CALL_BLOCK, 3, 3, 0, JIVASZTE_CALL_COMMIT, 0, 0, 0, JIVASZTE_CALL_BLOCK, 3, 3, 0,
    };
    static const uint32_t drops[] = {
        JIVASZTE_CALL_ASK, 1, 2, 6144, JIVASZTE_CALL_BLOCK, 8, 8, 0, JIVASZTE_CALL_WITHDRAW, 0, 0, 0,
        JIVASZTE_CALL_COMMIT, 0, 0, 0, JIVASZTE_CALL_ANNOUNCE, 1, 2, 6144, JIVASZTE_CALL_WITHDRAW, 0, 0, 0,
    };
    static const uint32_t orders[] = {
        JIVASZTE_CALL_ANNOUNCE, 3, 1, 10241, JIVASZTE_CALL_BLOCK, 5, 5, 0, JIVASZTE_CALL_INSTANT, 1, 1, 6144,
        JIVASZTE_CALL_ASK, 2, 1, 6145, JIVASZTE_CALL_BLOCK, 3, 3, 0, JIVASZTE_CALL_COMMIT, 0, 0, 0,
    };
    static const uint32_t named[] = {
        JIVASZTE_CALL_ANNOUNCE, 0, 0, 0, JIVASZTE_CALL_INSTANT, 2, 0, 4096, JIVASZTE_CALL_ASK, 2, 1, 4096,
        JIVASZTE_CALL_INSTANT, 1, 1, 10241, JIVASZTE_CALL_ASK, 2, 1, 10240, JIVASZTE_CALL_ANNOUNCE, 3, 1, 10241,
    };
    static const uint32_t unknown[] = { JIVASZTE_CALL_WITHDRAW + 1, 0, 0, 0 };
    uint32_t noise = 0;

    coefficients(1, 2979);
    coefficients(2, 6145);
    coefficients(3, 14336);
    coefficients(4, 16384);
    coefficients(1, 2048);
    coefficients(4294967295u, 4294967295u);
    effective_length(2, 9159, 1000);
    effective_length(3, 14336, 1000);
    effective_length(1, 6144, 1000000);
    effective_length(0, 4096, 0);
    effective_length(2, 6144, 0);
    least_advance(1, 2979, 2);
    least_advance(3, 11171, 2);
    least_advance(4, 11171, 2);
    least_advance(1, 2048, 2);
    least_advance(3, 10241, 2);
    note(1, 44100, 69);
    note(2, 44100, 69);
    note(3, 44100, 69);
    note(4, 44100, 69);
    note(1, 7999, 69);
    note(1, 44100, 128);
    note(1, 192000, 0);
    for (int i = 0; i < 3; i++)
        printf("draw: %d\n", jivaszte_draw(&noise));
    record("of the paper", paper + 8, sizeof paper - 8);
    record("with every field", every, sizeof every);
    record("cut short", every, 14);
    record("of no byte", every, 0);
    record("with a seed alone", seed, sizeof seed);
    gather(every, 16, 0);
    gather(every, 16, 9);
    gather(every, 16, 16);
    gather(every, 16, SIZE_MAX);
    gather(every, 0, 0);
    merge(32);
    merge(21);
    run("of the paper", paper, sizeof paper, 16);
    run("with no room left", paper, sizeof paper, 9);
    run("of order 3", third, sizeof third, 16);
    run("of order 4", fourth, sizeof fourth, 16);
    run("of a header cut short", paper, 7, 16);
    run("of a change that waits", waits, sizeof waits, 16);
    run("of nothing", paper, 0, 0);
    perform("six calls", 1, 0, calls, 24);
    perform("an asked change, committed too early and then a sample late", 1, 2, asks, 24);
    perform("an asked change, withdrawn, and an announced one", 1, 2, drops, 24);
    perform("from order 1 to 3, to 1 and to 2", 1, 1, orders, 24);
    perform("an order that is not there, delays of another order, a change that waits", 1, 1, named, 24);
    perform("a block on the voice of a refused opening", 0, 0, calls, 4);
    perform("a call cut short", 1, 0, calls, 7);
    perform("a call of no kind", 1, 0, unknown, 4);
    perform("nothing", 1, 0, calls, 0);
    wav_write(44100, samples, 2, 56);
    wav_write(192000, samples, 1, 48);
    wav_write(8000, samples, 0, 44);
    wav_write(7999, samples, 3, 0);
    wav_write(8000, samples, 3, 53);
    wav_write(8000, samples, 3, 54);
    wav_read("whole", file, sizeof file, 4);
    wav_read("in three places", file, sizeof file, 3);
    wav_read("in two places", file, sizeof file, 2);
    wav_read("without its pad byte", file, sizeof file - 1, 4);
    wav_read("of nothing", file, 0, 4);
    junction(2, 1, 3000, 2);
    junction(2, 1, 3000, 0);
    junction(65536, 1, 3000, 2);
    printf("version %s: %u\n", JIVASZTE_VERSION, jivaszte_version());
    if (jivaszte_version() != JIVASZTE_VERSION_NUMBER)
        return 1;
    for (uint32_t number = JIVASZTE_DONE; number <= JIVASZTE_NOTHING_ASKED; number++)
        if (jivaszte_words(number) == jivaszte_words(JIVASZTE_NOTHING_ASKED + 1))
            return 1;
    return jivaszte_words(JIVASZTE_AREA) == jivaszte_words(JIVASZTE_NOTHING_ASKED + 1);
}
