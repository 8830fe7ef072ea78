/* The fixed list as calls of the library, frame by frame: for notes and bends on channels 2 to 7 alone. It shares no code
   with the plugin, and keeps the rules of docs/LV2.md. */
#include "parts.h"
#include <jivaszte.h>
#include <math.h>

enum { ORDER_1 = 1, LOSS_ON = 65405, LOSS_OFF = 62259 };

typedef struct {
    jivaszte_voice voice;
    int note, wanted; /* wanted: 0, 'b' for a bend, 'n' for a note */
    uint32_t velocity;
    double bend;
    bool held;
} one;

static one strings[6];
static uint32_t seed;

static bool tuned(const one *s, uint32_t *length, uint32_t *delay)
{
    if (s->bend == 0)
        return jivaszte_note(ORDER_1, RATE, (uint32_t)s->note, length, delay) == 0;
    const double samples = RATE / (440 * exp2((s->note + 2 * s->bend - 69) / 12)) - 0.5;
    const long units = lrint(4096 * samples);
    *length = (uint32_t)(units / 4096);
    *delay = (uint32_t)(units % 4096);
    for (; *delay < 2049; *delay += 4096)
        --*length;
    return true;
}

/* What waited, once no change waits. */
static bool settle(one *s)
{
    uint32_t length, delay, ran;
    if (s->wanted == 0 || jivaszte_voice_waits(&s->voice) > 0)
        return true;
    const int what = s->wanted;
    s->wanted = 0;
    if (!tuned(s, &length, &delay))
        return false;
    if (what == 'b')
        return jivaszte_voice_announce(&s->voice, ORDER_1, length, delay) == 0;
    seed += 2654435761u;
    return jivaszte_voice_instant(&s->voice, ORDER_1, length, delay, &ran) == 0 &&
           jivaszte_voice_loss(&s->voice, s->held ? LOSS_ON : LOSS_OFF) == 0 &&
           jivaszte_voice_pluck(&s->voice, (uint32_t)lround(0.25f * 255.0 * s->velocity / 127), length, seed) == 0;
}

static bool heard(one *s, const uint8_t *message)
{
    switch (message[0] & 0xf0) {
    case 0x90:
        s->note = message[1];
        s->velocity = message[2];
        s->held = true;
        s->wanted = 'n';
        return settle(s);
    case 0x80:
        if (s->held && s->note == message[1]) {
            s->held = false;
            return jivaszte_voice_loss(&s->voice, LOSS_OFF) == 0;
        }
        return true;
    default:
        s->bend = (message[1] + 128 * message[2] - 8192) / 8192.0;
        if (s->note && !s->wanted)
            s->wanted = 'b';
        return settle(s);
    }
}

bool played_by_calls(const events *list, take *into)
{
    int next = 0;
    bool good = true;
    for (int k = 0; k < 6; k++)
        good = good && jivaszte_voice_open(&strings[k].voice, ORDER_1, 100, 4096, LOSS_ON, 64) == 0;
    for (uint32_t at = 0; good && at < FRAMES; at++) {
        int32_t side[2] = { 0, 0 };
        for (int k = 0; k < 6; k++)
            good = good && settle(&strings[k]);
        for (; next < list->count && list->list[next].at == at; next++)
            good = good && heard(&strings[(list->list[next].message[0] & 15) - 1], list->list[next].message);
        for (int k = 0; k < 6; k++) {
            int32_t out;
            jivaszte_voice_play(&strings[k].voice, &out, 1);
            side[k / 3] += out;
        }
        into->left[at] = (float)side[0] / 8388607.0f;
        into->right[at] = (float)side[1] / 8388607.0f;
    }
    return good;
}
