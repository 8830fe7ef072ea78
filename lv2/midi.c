/* MIDI to what a string does: which string a note takes, keys, bends and the pedal. */
#include "instrument.h"
#include <math.h>

static void damp(instrument *i, const settings *set, uint32_t k)
{
    instrument_count(i, jivaszte_voice_loss(&i->voice[k], set->release));
}

/* Channels 2 to 7 have a string each, as guitar controllers and MPE send. Others take the free string that was plucked
   longest ago, else the oldest; legato in pedal mode stays on the newest held string of its channel. */
static uint32_t choose(const instrument *i, const settings *set, uint32_t channel)
{
    if (channel >= 1 && channel <= STRINGS)
        return channel - 1;
    uint32_t best = 0;
    for (uint32_t k = 0; k < STRINGS; k++) {
        const string *a = &i->string[k], *b = &i->string[best];
        const bool mine = set->pedal && a->held && a->channel == channel;
        const bool its = set->pedal && b->held && b->channel == channel;
        if (mine != its ? mine : mine ? a->since >= b->since : a->held != b->held ? !a->held : a->since < b->since)
            best = k;
    }
    return best;
}

static void note_on(instrument *i, const settings *set, uint32_t channel, int32_t note, uint32_t velocity)
{
    const uint32_t k = choose(i, set, channel);
    string *s = &i->string[k];
    const bool legato = set->pedal && s->held && s->pending != PLUCK;
    if (s->asked)
        instrument_count(i, jivaszte_voice_withdraw(&i->voice[k]));
    const double amplitude = fmax(1, floor(set->level * 255 * velocity / 127 + 0.5));
    *s = (string){ note, true, channel, i->now, legato ? ASK : PLUCK, (uint32_t)amplitude, false, false };
    string_settle(i, set, k);
}

static void note_off(instrument *i, const settings *set, uint32_t channel, int32_t note)
{
    for (uint32_t k = 0; k < STRINGS; k++) {
        string *s = &i->string[k];
        if (!s->held || s->note != note || s->channel != channel)
            continue;
        s->held = false;
        if (!i->sustain)
            damp(i, set, k);
    }
}

static void bend(instrument *i, const settings *set, uint32_t channel, uint32_t value)
{
    i->bend[channel] = ((double)value - 8192) / 8192;
    for (uint32_t k = 0; k < STRINGS; k++) {
        string *s = &i->string[k];
        if (s->channel != channel || s->note < 0)
            continue;
        if (s->pending == NOTHING)
            s->pending = BEND;
        string_settle(i, set, k);
    }
}

static void pedal(instrument *i, const settings *set, bool down)
{
    i->sustain = down && !set->pedal;
    for (uint32_t k = 0; k < STRINGS; k++) {
        string *s = &i->string[k];
        if (set->pedal && down && (s->asked || s->pending == ASK)) {
            s->commit = true;
            string_settle(i, set, k);
        } else if (!set->pedal && !down && !s->held && s->note >= 0) {
            damp(i, set, k);
        }
    }
}

/* CC 123 releases every key, CC 120 also takes the loss to 0. */
static void all_off(instrument *i, const settings *set, bool sound)
{
    i->sustain = false;
    for (uint32_t k = 0; k < STRINGS; k++) {
        i->string[k].held = false;
        if (sound && i->string[k].pending == PLUCK)
            i->string[k].pending = NOTHING;
        instrument_count(i, jivaszte_voice_loss(&i->voice[k], sound ? 0 : set->release));
    }
}

void instrument_midi(instrument *i, const settings *set, const uint8_t *m, uint32_t size)
{
    if (size < 3)
        return;
    const uint32_t channel = m[0] & 15, first = m[1] & 127, second = m[2] & 127;
    switch (m[0] & 0xf0) {
    case 0x90:
        if (second)
            note_on(i, set, channel, (int32_t)first, second);
        else
            note_off(i, set, channel, (int32_t)first);
        break;
    case 0x80: note_off(i, set, channel, (int32_t)first); break;
    case 0xe0: bend(i, set, channel, first + 128 * second); break;
    case 0xb0:
        if (first == 64)
            pedal(i, set, second >= 64);
        else if (first == 120 || first == 123)
            all_off(i, set, first == 120);
        break;
    }
}
