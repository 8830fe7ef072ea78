/* Six strings played by MIDI: what the plugin keeps between two blocks. midi.c turns messages into what a string is
   to do, strings.c that into calls of the library; frames.c renders, state.c stores and loads, plugin.c and save.c are the
   LV2 side. */
#ifndef INSTRUMENT_H
#define INSTRUMENT_H

#include <jivaszte.h>
#include <stdbool.h>

enum { STRINGS = 6, CHANNELS = 16, CHUNK = 64 };

/* What a string does as soon as no change waits on it. A newer one takes the place of an older one. */
enum { NOTHING, BEND, PLUCK, ASK };

typedef struct {
    int32_t note;       /* -1 before the first */
    bool held;          /* its key is down */
    uint32_t channel;
    uint64_t since;     /* the frame of its note on */
    uint32_t pending;   /* NOTHING to ASK */
    uint32_t amplitude; /* of a pending pluck */
    bool asked;         /* an asked change waits for its commit */
    bool commit;        /* the pedal has come: commit once the advance is over */
} string;

/* The control ports' values, read once at the start of a block. */
typedef struct {
    uint32_t loss, release, order;
    double bend, level;
    bool pedal;
} settings;

typedef struct {
    jivaszte_voice voice[STRINGS];
    string string[STRINGS];
    double bend[CHANNELS]; /* -1 to 1 */
    uint64_t now;          /* in frames */
    uint32_t rate, advance, seed, refused;
    bool sustain;
} instrument;

/* Opens every string at rest. */
void instrument_open(instrument *i, uint32_t rate, uint32_t advance, const settings *set);

/* Counts a call that was refused. */
void instrument_count(instrument *i, uint32_t refusal);

/* Does what a string can do now. An asked change is committed first; what is pending follows once nothing waits. */
void string_settle(instrument *i, const settings *set, uint32_t k);

/* A MIDI message at this frame. */
void instrument_midi(instrument *i, const settings *set, const uint8_t *message, uint32_t size);

/* What falls due at this frame is done; how many of the next frames follow before anything else does, `most` at most. */
uint32_t instrument_settle(instrument *i, const settings *set, uint32_t most);

/* So many frames: strings 1 to 3 left, 4 to 6 right. in may be NULL; it is clamped, and what is no number counts as 0. */
void instrument_frames(instrument *i, const settings *set, const float *in, float *left, float *right, uint32_t count);

/* The instrument as bytes that do not depend on the machine. */
enum {
    STATE_HEAD = 4 * 6 + 8 + 2 * CHANNELS,
    STATE_STRING = 20,
    STATE_MOST = STATE_HEAD + STRINGS * (STATE_STRING + 4 + JIVASZTE_STORED_MOST)
};
size_t state_store(const instrument *i, uint8_t *bytes);

/* Takes them up; 0, or words that say why not. Then every string is the refusal voice. */
const char *state_load(instrument *i, const uint8_t *bytes, size_t length);

#endif
