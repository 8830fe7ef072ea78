/* The calls of a string, and what waits with a change. A note on is an instant change and then a pluck; a bend is an
   announced change; legato in pedal mode is an asked change. While an announced change waits, the newest of these waits
   with it. */
#include "instrument.h"
#include <math.h>

void instrument_count(instrument *i, uint32_t refusal)
{
    i->refused += refusal != JIVASZTE_DONE;
}

/* Length and delay of a string's note under its channel's bend. The loop has half a sample beside them. */
static uint32_t tuning(const instrument *i, const settings *set, const string *s, uint32_t *length, uint32_t *delay)
{
    const double bend = i->bend[s->channel] * set->bend;
    if (bend == 0)
        return jivaszte_note(set->order, i->rate, (uint32_t)s->note, length, delay);
    const double period = i->rate / (440 * exp2((s->note + bend - 69) / 12));
    const int64_t total = llrint(4096 * fmin(period - 0.5, 1e6)), low = 4096 * (int64_t)set->order - 2047;
    if (total < low + 4096 || total >= low + 4096 * 2049)
        return JIVASZTE_NOTE_LENGTH;
    *length = (uint32_t)((total - low) / 4096);
    *delay = (uint32_t)(total - 4096 * (int64_t)*length);
    return JIVASZTE_DONE;
}

/* Retunes, and plucks only if that was accepted. */
static void pluck(instrument *i, const settings *set, uint32_t k)
{
    const string *s = &i->string[k];
    uint32_t length, delay, ran, refusal = tuning(i, set, s, &length, &delay);
    if (refusal == JIVASZTE_DONE)
        refusal = jivaszte_voice_instant(&i->voice[k], set->order, length, delay, &ran);
    instrument_count(i, refusal);
    if (refusal != JIVASZTE_DONE)
        return;
    instrument_count(i, jivaszte_voice_loss(&i->voice[k], s->held || i->sustain ? set->loss : set->release));
    i->seed += 2654435761u;
    instrument_count(i, jivaszte_voice_pluck(&i->voice[k], s->amplitude, length, i->seed));
}

static uint32_t change(instrument *i, const settings *set, uint32_t k, bool ask)
{
    uint32_t length, delay, refusal = tuning(i, set, &i->string[k], &length, &delay);
    if (refusal == JIVASZTE_DONE)
        refusal = ask ? jivaszte_voice_ask(&i->voice[k], set->order, length, delay)
                      : jivaszte_voice_announce(&i->voice[k], set->order, length, delay);
    instrument_count(i, refusal);
    return refusal;
}

/* Twice, since an ask may be ready at once. */
void string_settle(instrument *i, const settings *set, uint32_t k)
{
    string *s = &i->string[k];
    for (int turn = 0; turn < 2; turn++) {
        if (jivaszte_voice_waits(&i->voice[k]) > 0 || (s->asked && !s->commit))
            return;
        if (s->asked)
            instrument_count(i, jivaszte_voice_commit(&i->voice[k]));
        const uint32_t pending = s->pending;
        s->asked = false;
        s->pending = NOTHING;
        if (pending == PLUCK)
            pluck(i, set, k);
        else if (pending == BEND)
            change(i, set, k, false);
        else if (pending == ASK)
            s->asked = change(i, set, k, true) == JIVASZTE_DONE;
        s->commit = s->commit && s->asked;
    }
}

uint32_t instrument_settle(instrument *i, const settings *set, uint32_t most)
{
    for (uint32_t k = 0; k < STRINGS; k++) {
        string_settle(i, set, k);
        const string *s = &i->string[k];
        const bool due = s->asked ? s->commit : s->pending != NOTHING;
        const uint32_t waits = jivaszte_voice_waits(&i->voice[k]);
        if (due && waits > 0 && waits < most)
            most = waits;
    }
    return most;
}

void instrument_open(instrument *i, uint32_t rate, uint32_t advance, const settings *set)
{
    *i = (instrument){ .rate = rate, .advance = advance };
    for (uint32_t k = 0; k < STRINGS; k++) {
        i->string[k].note = -1;
        instrument_count(i, jivaszte_voice_open(&i->voice[k], set->order, 100, 4096 * set->order, set->loss, advance));
    }
}
