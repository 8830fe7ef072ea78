/* The instrument as bytes, the lowest first: a number that names the form, rate, advance, seed, refused calls, sustain, the
   frame, each channel's bend; then for each string its note and what is pending, and its stored voice with its length. */
#include "instrument.h"

enum { FORM = 0x3153564a };

static uint8_t *put(uint8_t *to, uint64_t number, int bytes)
{
    for (int n = 0; n < bytes; n++)
        *to++ = (uint8_t)(number >> 8 * n);
    return to;
}

static uint64_t get(const uint8_t **from, int bytes)
{
    uint64_t number = 0;
    for (int n = 0; n < bytes; n++)
        number |= (uint64_t)*(*from)++ << 8 * n;
    return number;
}

size_t state_store(const instrument *i, uint8_t *bytes)
{
    uint8_t *to = bytes;
    const uint32_t words[] = { FORM, i->rate, i->advance, i->seed, i->refused, i->sustain };
    for (size_t n = 0; n < sizeof words / sizeof words[0]; n++)
        to = put(to, words[n], 4);
    to = put(to, i->now, 8);
    for (int c = 0; c < CHANNELS; c++)
        to = put(to, (uint64_t)(i->bend[c] * 8192 + 8192), 2);
    for (int k = 0; k < STRINGS; k++) {
        const string *s = &i->string[k];
        size_t length;
        to = put(to, (uint32_t)s->note, 4);
        to = put(to, s->since, 8);
        to = put(to, s->amplitude, 2);
        to = put(to, s->channel, 1);
        to = put(to, s->pending, 1);
        to = put(to, s->held | s->asked << 1 | s->commit << 2, 4);
        jivaszte_voice_store(&i->voice[k], to + 4, JIVASZTE_STORED_MOST, &length);
        to = put(to, length, 4) + length;
    }
    return (size_t)(to - bytes);
}

/* A string's own fields, and its stored voice, from what is left of the bytes. */
static const char *load_string(instrument *i, int k, const uint8_t **from, const uint8_t *end)
{
    string *s = &i->string[k];
    if (end - *from < STATE_STRING + 4)
        return "the state ends early";
    const uint32_t note = (uint32_t)get(from, 4);
    s->since = get(from, 8);
    s->amplitude = (uint32_t)get(from, 2);
    s->channel = (uint32_t)get(from, 1);
    s->pending = (uint32_t)get(from, 1);
    const uint32_t flags = (uint32_t)get(from, 4), length = (uint32_t)get(from, 4);
    if ((note > 127 && note != UINT32_MAX) || s->amplitude > 255 || s->channel >= CHANNELS || s->pending > ASK || flags > 7)
        return "a string of the state has a number out of range";
    s->note = note == UINT32_MAX ? -1 : (int32_t)note;
    s->held = flags & 1;
    s->asked = flags >> 1 & 1;
    s->commit = flags >> 2;
    if (s->note < 0 && (s->held || s->asked || s->pending != NOTHING))
        return "a string of the state plays no note";
    if ((size_t)(end - *from) < length)
        return "the state ends early";
    const uint32_t refusal = jivaszte_voice_load(&i->voice[k], *from, length);
    *from += length;
    return refusal == JIVASZTE_DONE ? NULL : jivaszte_words(refusal);
}

static const char *load(instrument *i, const uint8_t *from, size_t length)
{
    const uint8_t *end = from + length;
    if (length < STATE_HEAD)
        return "the state ends early";
    if (get(&from, 4) != FORM)
        return "the state has another form";
    if (get(&from, 4) != i->rate)
        return "the state is of another sample rate than the host's";
    i->advance = (uint32_t)get(&from, 4);
    i->seed = (uint32_t)get(&from, 4);
    i->refused = (uint32_t)get(&from, 4);
    i->sustain = get(&from, 4) != 0;
    i->now = get(&from, 8);
    for (int c = 0; c < CHANNELS; c++)
        i->bend[c] = ((double)(get(&from, 2) & 0x3fff) - 8192) / 8192;
    for (int k = 0; k < STRINGS; k++) {
        const char *why = load_string(i, k, &from, end);
        if (why)
            return why;
    }
    return from == end ? NULL : "bytes follow the state";
}

const char *state_load(instrument *i, const uint8_t *bytes, size_t length)
{
    const uint32_t rate = i->rate;
    const char *why = load(i, bytes, length);
    if (why) {
        *i = (instrument){ .rate = rate, .refused = 1 };
        for (int k = 0; k < STRINGS; k++) {
            i->string[k].note = -1;
            jivaszte_voice_open(&i->voice[k], 1, 1, 4096, 0, 0);
        }
    }
    return why;
}
