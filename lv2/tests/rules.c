/* The pedal, the input, and a chord that must not clip. */
#include "parts.h"
#include <math.h>
#include <stdio.h>

float peak(const take *a, uint32_t from, uint32_t to)
{
    float most = 0;
    for (uint32_t i = from; i < to; i++)
        most = fmaxf(most, fmaxf(fabsf(a->left[i]), fabsf(a->right[i])));
    return most;
}

static void one_take(const events *list, take *into, float pedal, float *in, float *refused)
{
    player p;
    player_make(&p, RATE);
    p.values[PEDAL] = pedal;
    p.in = in;
    player_start(&p);
    player_run(&p, list, 0, FRAMES, 256, into, false);
    *refused = p.values[REFUSED];
    player_end(&p);
}

/* In pedal mode a second note is not heard before the pedal, and is after it. */
void pedal_commits(void)
{
    static take takes[2];
    float refused;
    for (int asked = 0; asked < 2; asked++) {
        static events list;
        list.count = 0;
        host_event(&list, 1000, 0x90, 57, 100);
        if (asked) {
            host_event(&list, 20000, 0x90, 60, 100);
            host_event(&list, 30000, 0xb0, 64, 127);
        }
        one_take(&list, &takes[asked], 1, NULL, &refused);
        expect(refused == 0, "the pedal's calls are refused");
    }
    expect(same(&takes[0], &takes[1], 0, 30000), "an asked change is heard before the pedal");
    expect(!same(&takes[0], &takes[1], 30000, 31000), "an asked change is not heard after the pedal");
}

/* What is no number counts as 0, and what is too large as 1; nothing is refused. */
void input_is_clamped(void)
{
    static take takes[2];
    static float in[2][FRAMES];
    static events list;
    float refused;
    for (int i = 0; i < FRAMES; i++) {
        in[0][i] = i % 97 == 0 ? 1.0f : i % 89 == 0 ? -1.0f : 0.0f;
        in[1][i] = i % 97 == 0 ? 1e30f : i % 89 == 0 ? -INFINITY : i % 83 == 0 ? NAN : 0.0f;
    }
    host_event(&list, 20000, 0x90, 57, 100);
    for (int k = 0; k < 2; k++) {
        one_take(&list, &takes[k], 0, in[k], &refused);
        expect(refused == 0, "an input is refused");
    }
    expect(same(&takes[0], &takes[1], 0, FRAMES) && peak(&takes[0], 0, 20000) > 0, "the input is not clamped");
}

void chord_does_not_clip(void)
{
    static take heard;
    static events list;
    float refused;
    for (int turn = 0; turn < 8; turn++)
        for (int k = 0; k < 6; k++)
            host_event(&list, 100 + 12000 * (uint32_t)turn, 0x91 + k, 40 + 5 * k + turn, 127);
    one_take(&list, &heard, 0, NULL, &refused);
    printf("chords of six at velocity 127: peak %g\n", peak(&heard, 0, FRAMES));
    expect(peak(&heard, 0, FRAMES) <= 1 && refused == 0, "a chord clips");
}

/* A note below what fits the line is neither retuned nor plucked, and is counted. */
void low_note_is_refused(void)
{
    static take heard;
    static events list;
    float refused;
    host_event(&list, 100, 0x90, 12, 127);
    one_take(&list, &heard, 0, NULL, &refused);
    expect(refused == 1 && peak(&heard, 0, FRAMES) == 0, "a note that does not fit sounds");
}
