/* Jivaszte for C: the routines of libjivaszte.a, which `tools/build library` proves and writes, and `make install` puts
   where `cc host.c $(pkg-config --cflags --libs jivaszte)` finds it.

   Every routine is safe for every number and every byte, but that the calls on a jivaszte_voice and a jivaszte_junction
   ask for one that was opened, or loaded, and those on a jivaszte_instrument for one that was reset. Of its pointers a
   caller owes what C always asks: none is null, not even with length 0; each refers to as many values as its length or its
   type says; and what is written overlaps nothing else that is passed. No routine keeps a pointer, allocates, or touches a
   variable of its own: calls in several threads do not disturb each other.

   A routine that can refuse returns 0, or the number of the first test that was not met, and then leaves 0 in what
   it is lent for its results, but where it says otherwise. docs/PERFORMANCE.md tells how much stack a run takes.

   The shared library is libjivaszte.so.N, where N is the first number of the version. A program that was built over one
   libjivaszte.so.N runs over every later one with the same N: each routine declared here keeps its name, its parameters
   and what it returns, the routines behind inline functions too; each struct keeps its size and its alignment; each
   number keeps its meaning. Routines and numbers may be added. What breaks one of these raises N. The words inside a
   jivaszte_voice or a jivaszte_junction are no part of this promise: one that another version left in a file or in
   memory is to be stored as bytes or opened anew. */
#ifndef JIVASZTE_H
#define JIVASZTE_H

#include <stddef.h>
#include <stdint.h>

#ifdef __cplusplus
extern "C" {
#endif

/* The version of this header; jivaszte_version returns that of the library, as such a number: 10,000 times the first
   number, 100 times the second, and the third. */
#define JIVASZTE_VERSION "0.1.0"
#define JIVASZTE_VERSION_NUMBER 100
uint32_t jivaszte_version(void);

/* The numbers by which calls refuse. */
enum {
    JIVASZTE_DONE = 0,
    JIVASZTE_ORDER = 1,
    JIVASZTE_LENGTH = 2,
    JIVASZTE_DELAY = 3,
    JIVASZTE_LOSS = 4,
    JIVASZTE_ADVANCE = 5,
    JIVASZTE_CHANGE_WAITS = 6,
    JIVASZTE_AMPLITUDE = 7,
    JIVASZTE_COUNT = 8,
    JIVASZTE_BLOCK_LENGTHS = 9,
    JIVASZTE_SAMPLE = 10,
    JIVASZTE_RATE = 11,
    JIVASZTE_NOTE = 12,
    JIVASZTE_NOTE_LENGTH = 13,
    JIVASZTE_CUT_SHORT = 14,
    JIVASZTE_BIT_MAP = 15,
    JIVASZTE_OUTPUT_FULL = 16,
    JIVASZTE_RECORDING_RATE = 17,
    JIVASZTE_ROOM = 18,
    JIVASZTE_FILE_FORM = 19,
    JIVASZTE_COMMIT_EARLY = 20,
    JIVASZTE_NOTHING_ASKED = 21,
    JIVASZTE_STORED_LENGTH = 22,
    JIVASZTE_STORED_PART = 23,
    JIVASZTE_STRING = 24,
    JIVASZTE_AREA = 25,
    JIVASZTE_NOT_FINITE = 26,
    JIVASZTE_FLOAT_RANGE = 27,
    JIVASZTE_HEADERS = 28,
    JIVASZTE_ALONE = 29,
    JIVASZTE_MERGE = 30
};

/* The words of such a number. */
static inline const char *jivaszte_words(uint32_t number)
{
    static const char *const words[] = {
        "done",
        "the order is not 1, 2 or 3",
        "the length is outside 1 to 2048",
        "the delay is outside the order's range: 2049 to 6144 in order 1, 6145 to 10240 in order 2, 10241 to 14336 in order 3",
        "the loss is above 65535",
        "the advance is above 64",
        "a change waits",
        "the amplitude is above 255",
        "the count is outside 1 to 2048",
        "input and output differ in length",
        "an input is outside -8388607 to 8388607",
        "the rate is outside 8000 to 192000",
        "the note is above 127",
        "the note's length is outside 1 to 2048",
        "the bytes end early",
        "bit 5 or 6 stands without 4, or bit 7 without 1 or 2",
        "the wait does not fit the output that is left",
        "the recording's rate is outside 8000 to 192000",
        "there are more than 1000000 samples, or the lent slice is too short",
        "the bytes are no WAV file of one channel and 24 bits in the form that is written",
        "the asked change has taken fewer samples than the advance",
        "no asked change waits",
    };
    switch (number) {
    case 22:
        return "the stored bytes are too few or too many";
    case 23:
        return "a part of the stored voice is outside its limits";
    case 24:
        return "the string number is above 5";
    case 25:
        return "an area is outside 1 to 65535";
    case 26:
        return "the float is not a number, or it is infinite";
    case 27:
        return "a sample is outside -1 to 1, or a loss outside 0 to 1";
    case 28:
        return "the first 8 bytes of the scores differ";
    case 29:
        return "one of the scores does not play to its end alone";
    case 30:
        return "the merge does not play to its end, or does not fit the lent slice";
    case 32:
        return "no advance from 0 to 64 keeps a change within the wanted distance";
    }
    return number < sizeof words / sizeof words[0] ? words[number] : "no number of a refusal";
}

/* The number by which jivaszte_perform refuses. */
enum { JIVASZTE_LIST_FORM = 31 };

/* The number by which jivaszte_least_advance refuses, after 1 and 3, where no advance is enough. */
enum { JIVASZTE_NO_ADVANCE = 32 };

/* What each bit of a record's bit map counts. */
enum {
    JIVASZTE_HAS_WAIT = 1,
    JIVASZTE_HAS_LENGTH = 2,
    JIVASZTE_HAS_DELAY = 4,
    JIVASZTE_HAS_LOSS = 8,
    JIVASZTE_HAS_AMPLITUDE = 16,
    JIVASZTE_HAS_COUNT = 32,
    JIVASZTE_HAS_SEED = 64,
    JIVASZTE_INSTANT = 128
};

/* What the nine numbers of a record are. */
enum {
    JIVASZTE_FIELD_REFUSAL = 0,
    JIVASZTE_FIELD_MAP = 1,
    JIVASZTE_FIELD_WAIT = 2,
    JIVASZTE_FIELD_LENGTH = 3,
    JIVASZTE_FIELD_DELAY = 4,
    JIVASZTE_FIELD_LOSS = 5,
    JIVASZTE_FIELD_AMPLITUDE = 6,
    JIVASZTE_FIELD_COUNT = 7,
    JIVASZTE_FIELD_SEED = 8,
    JIVASZTE_FIELDS = 9
};

/* The coefficients of an order and a delay in 1/4,096 of a sample, in units of 1/65,536; those past the order are 0.
   Refuses by 1, 3. */
uint32_t jivaszte_coefficients(uint32_t order, uint32_t delay, int32_t *a1, int32_t *a2, int32_t *a3);

/* The index, from 0, of the last of the first 64 values of an eliminator's response to 1,000,000 that exceeds the
   threshold in magnitude, plus one; 0 where none does. Refuses by 1, 3. */
uint32_t jivaszte_effective_length(uint32_t order, uint32_t delay, uint32_t threshold, uint32_t *length);

/* The least advance, 0 to 64, with which every sample after a change to an order and a delay is at most `wanted` units
   from that of the ideal filter, whatever was played before: docs/CLICK.md, "The own figure". Refuses by 1, 3, 32. */
uint32_t jivaszte_least_advance(uint32_t order, uint32_t delay, uint32_t wanted, uint32_t *advance);

/* The length and the delay by which a voice sounds a note at a rate in samples a second. Refuses by 1, 11, 12, 13. */
uint32_t jivaszte_note(uint32_t order, uint32_t rate, uint32_t note, uint32_t *length, uint32_t *delay);

/* A draw, -32,768 to 32,767, on a noise state, which is moved on. */
int32_t jivaszte_draw(uint32_t *noise);

/* Reads the record that a score without its header, or what is left of one, starts with. Returns how many bytes the
   record takes, and 0 where it is refused, by 14 or 15; the fields that it does not have are 0. */
size_t jivaszte_record(const uint8_t *score, size_t length, uint32_t fields[JIVASZTE_FIELDS]);

/* The number that the bytes from a start on make, eight at most, the first lowest; bytes that are missing are 0, so that
   a start at the end or past it, wherever that is, gives 0. */
uint64_t jivaszte_gather(const uint8_t *bytes, size_t length, size_t start);

/* Makes calls on a voice of its own, one after the other, each on what the one before left. A call is four words: its
   kind, and three numbers, of which those that it does not use are not looked at:
       block      how many samples it takes from the input, the length of the output that it is lent
       loss       G
       pluck      amplitude, count, seed
       announce   order, length, delay
       instant    order, length, delay
       ask        order, length, delay
       commit     nothing
       withdraw   nothing
   A change may name another order than the one in force; the line and the last output carry over. An announced change
   takes effect when its second copy of the filter has taken as many samples as the advance. An asked one waits for its
   commit, also with an advance of 0, and its second copy takes each sample until then; a commit puts it in force before
   the next sample, and a withdrawal drops it. All three are refused by 1, 2 and 3, the delay being tested with the order
   that the change names, and then by 6 while an announced or asked change waits: one waits at a time. A commit is refused
   by 21 where no asked change waits, and then by 20 where fewer samples than the advance were put out since the ask; a
   withdrawal by 21. An announced change counts there as nothing asked.
   What a block puts out follows in the output what the blocks before it put out; a refused block takes its input and puts
   out nothing. numbers has what each call returned, opening what the opening returned, which makes a voice also where
   it refuses; written is how many samples the calls put out. Refuses by 31, before anything is done, where the words are
   no list of such calls or need more input, output or numbers than there is. */
enum {
    JIVASZTE_CALL_BLOCK = 0,
    JIVASZTE_CALL_LOSS = 1,
    JIVASZTE_CALL_PLUCK = 2,
    JIVASZTE_CALL_ANNOUNCE = 3,
    JIVASZTE_CALL_INSTANT = 4,
    JIVASZTE_CALL_ASK = 5,
    JIVASZTE_CALL_COMMIT = 6,
    JIVASZTE_CALL_WITHDRAW = 7
};
uint32_t jivaszte_perform(uint32_t order, uint32_t length, uint32_t delay, uint32_t loss, uint32_t advance,
                          const uint32_t *words, size_t count, const int32_t *input, size_t samples, int32_t *output,
                          size_t room, uint32_t *numbers, size_t places, uint32_t *opening, size_t *written);

/* A voice that the host keeps, 8,556 bytes: open it, render block after block, and make calls in between. Its fields are
   for the routines below alone. A host owes three things: a voice is opened or loaded before anything else is called on
   it, nothing but these routines writes to it, and one thread at a time uses it. It may be copied whole, which makes a
   second voice; several voices do not disturb each other. After an opening that was refused it holds the refusal voice:
   order 1, length 1, delay 4,096, loss 0, advance 0, at rest. */
enum { JIVASZTE_HEAD = 27, JIVASZTE_LINE = 2112 };
typedef struct {
    uint32_t head[JIVASZTE_HEAD];
    int32_t line[JIVASZTE_LINE];
} jivaszte_voice;

/* The routines behind the calls on a voice, over its two fields. */
uint32_t jivaszte_packed_open(uint32_t *head, int32_t *line, uint32_t order, uint32_t length, uint32_t delay,
                              uint32_t loss, uint32_t advance);
uint32_t jivaszte_packed_loss(uint32_t *head, uint32_t loss);
uint32_t jivaszte_packed_pluck(uint32_t *head, uint32_t amplitude, uint32_t count, uint32_t seed);
uint32_t jivaszte_packed_announce(uint32_t *head, uint32_t order, uint32_t length, uint32_t delay);
uint32_t jivaszte_packed_instant(uint32_t *head, const int32_t *line, uint32_t order, uint32_t length, uint32_t delay,
                                 uint32_t *count);
uint32_t jivaszte_packed_ask(uint32_t *head, uint32_t order, uint32_t length, uint32_t delay);
uint32_t jivaszte_packed_commit(uint32_t *head);
uint32_t jivaszte_packed_withdraw(uint32_t *head);
uint32_t jivaszte_packed_block(uint32_t *head, int32_t *line, const int32_t *input, size_t samples, int32_t *output,
                               size_t room);
uint32_t jivaszte_packed_play(uint32_t *head, int32_t *line, int32_t *output, size_t count);
uint32_t jivaszte_packed_waits(const uint32_t *head);
uint32_t jivaszte_packed_check(const uint32_t *head, const int32_t *line);
uint32_t jivaszte_packed_store(const uint32_t *head, const int32_t *line, uint8_t *bytes, size_t room, size_t *length);
uint32_t jivaszte_packed_load(uint32_t *head, int32_t *line, const uint8_t *bytes, size_t length);

/* Opens a voice, whatever the memory held. Refuses by 1, 2, 3, 4, 5. */
static inline uint32_t jivaszte_voice_open(jivaszte_voice *voice, uint32_t order, uint32_t length, uint32_t delay,
                                           uint32_t loss, uint32_t advance)
{
    return jivaszte_packed_open(voice->head, voice->line, order, length, delay, loss, advance);
}

/* The calls, as in a list; a refused one leaves the voice as it was. Sets the loss: 4. */
static inline uint32_t jivaszte_voice_loss(jivaszte_voice *voice, uint32_t loss)
{
    return jivaszte_packed_loss(voice->head, loss);
}

/* Starts a pluck in place of the rest of the old one: 7, 8. */
static inline uint32_t jivaszte_voice_pluck(jivaszte_voice *voice, uint32_t amplitude, uint32_t count, uint32_t seed)
{
    return jivaszte_packed_pluck(voice->head, amplitude, count, seed);
}

/* Announces a change, which takes effect after as many samples as the advance: 1, 2, 3, 6. */
static inline uint32_t jivaszte_voice_announce(jivaszte_voice *voice, uint32_t order, uint32_t length, uint32_t delay)
{
    return jivaszte_packed_announce(voice->head, order, length, delay);
}

/* Changes at once; count is how many samples of the line its second filter was run over, 0 where it is refused: 1, 2,
   3, 6. */
static inline uint32_t jivaszte_voice_instant(jivaszte_voice *voice, uint32_t order, uint32_t length, uint32_t delay,
                                              uint32_t *count)
{
    return jivaszte_packed_instant(voice->head, voice->line, order, length, delay, count);
}

/* Asks for a change, which waits for its commit: 1, 2, 3, 6. */
static inline uint32_t jivaszte_voice_ask(jivaszte_voice *voice, uint32_t order, uint32_t length, uint32_t delay)
{
    return jivaszte_packed_ask(voice->head, order, length, delay);
}

/* Puts the asked change in force, before the next sample: 21, 20. */
static inline uint32_t jivaszte_voice_commit(jivaszte_voice *voice)
{
    return jivaszte_packed_commit(voice->head);
}

/* Drops the asked change: 21. */
static inline uint32_t jivaszte_voice_withdraw(jivaszte_voice *voice)
{
    return jivaszte_packed_withdraw(voice->head);
}

/* A block: an output for each input, samples of them, into a room as long: 9, 10, and then the output is untouched. */
static inline uint32_t jivaszte_voice_block(jivaszte_voice *voice, const int32_t *input, size_t samples, int32_t *output,
                                            size_t room)
{
    return jivaszte_packed_block(voice->head, voice->line, input, samples, output, room);
}

/* A block of zeros, count of them, for hosts that feed nothing: never refused. */
static inline uint32_t jivaszte_voice_play(jivaszte_voice *voice, int32_t *output, size_t count)
{
    return jivaszte_packed_play(voice->head, voice->line, output, count);
}

/* How many samples an announced change still takes, or an asked one until its commit is accepted; 0 where none waits. */
static inline uint32_t jivaszte_voice_waits(const jivaszte_voice *voice)
{
    return jivaszte_packed_waits(voice->head);
}

/* 1 where the memory is a voice that the calls above may be given, else 0, whatever it holds: for a voice that came from a
   file or from another program. It takes as long as a block of some 64 samples. */
static inline uint32_t jivaszte_voice_check(const jivaszte_voice *voice)
{
    return jivaszte_packed_check(voice->head, voice->line);
}

/* The most bytes that a stored voice has. */
#define JIVASZTE_STORED_MOST 8529

/* Stores a voice: a byte that says which parts follow, and the parts that differ from those of the refusal voice. length
   is how many bytes that is; nothing past them is touched, and the voice stays as it is. The bytes do not depend on the
   machine. Refuses by 18 where the room is shorter, and then length is 0, and no byte is touched. */
static inline uint32_t jivaszte_voice_store(const jivaszte_voice *voice, uint8_t *bytes, size_t room, size_t *length)
{
    return jivaszte_packed_store(voice->head, voice->line, bytes, room, length);
}

/* Loads a stored voice, whatever the memory held: it goes on as if it had never stopped. Any bytes are safe. Refuses by
   22, 23, and then leaves the refusal voice. Bytes that pass but that no voice stored load a voice too; until it is
   opened anew, the click figure is not claimed for it. */
static inline uint32_t jivaszte_voice_load(jivaszte_voice *voice, const uint8_t *bytes, size_t length)
{
    return jivaszte_packed_load(voice->head, voice->line, bytes, length);
}

/* The length, the delay and the loss of a stored voice, for a panel that shows no more. Refuses by 22, 23 as loading
   does, and then gives those of the refusal voice: 1, 4,096 and 0. */
uint32_t jivaszte_panel(const uint8_t *bytes, size_t length, uint32_t *string_length, uint32_t *delay, uint32_t *loss);
/* Six strings in one instrument that the host keeps, 51,336 bytes: each string is a voice with calls of its own, and a mix
   is a block of all six, whose one input goes to each of them and whose outputs are their clipped sums. A host owes three
   things: an instrument is reset before anything else is called on it, nothing but these routines writes to it, and one
   thread at a time uses it. It may be copied whole. */
#define JIVASZTE_STRINGS 6
typedef struct {
    uint32_t heads[JIVASZTE_STRINGS][JIVASZTE_HEAD];
    int32_t lines[JIVASZTE_STRINGS][JIVASZTE_LINE];
} jivaszte_instrument;

/* The routines behind the calls on an instrument, over its two fields. */
void jivaszte_strings_reset(uint32_t (*heads)[JIVASZTE_HEAD], int32_t (*lines)[JIVASZTE_LINE]);
uint32_t jivaszte_strings_open(uint32_t (*heads)[JIVASZTE_HEAD], int32_t (*lines)[JIVASZTE_LINE], uint32_t string,
                               uint32_t order, uint32_t length, uint32_t delay, uint32_t loss, uint32_t advance);
uint32_t jivaszte_strings_loss(uint32_t (*heads)[JIVASZTE_HEAD], uint32_t string, uint32_t loss);
uint32_t jivaszte_strings_pluck(uint32_t (*heads)[JIVASZTE_HEAD], uint32_t string, uint32_t amplitude, uint32_t count,
                                uint32_t seed);
uint32_t jivaszte_strings_announce(uint32_t (*heads)[JIVASZTE_HEAD], uint32_t string, uint32_t order, uint32_t length,
                                   uint32_t delay);
uint32_t jivaszte_strings_instant(uint32_t (*heads)[JIVASZTE_HEAD], const int32_t (*lines)[JIVASZTE_LINE], uint32_t string,
                                  uint32_t order, uint32_t length, uint32_t delay, uint32_t *count);
uint32_t jivaszte_strings_ask(uint32_t (*heads)[JIVASZTE_HEAD], uint32_t string, uint32_t order, uint32_t length,
                              uint32_t delay);
uint32_t jivaszte_strings_commit(uint32_t (*heads)[JIVASZTE_HEAD], uint32_t string);
uint32_t jivaszte_strings_withdraw(uint32_t (*heads)[JIVASZTE_HEAD], uint32_t string);
uint32_t jivaszte_strings_mix(uint32_t (*heads)[JIVASZTE_HEAD], int32_t (*lines)[JIVASZTE_LINE], const int32_t *input,
                              size_t samples, int32_t *output, size_t room);
uint32_t jivaszte_strings_play(uint32_t (*heads)[JIVASZTE_HEAD], int32_t (*lines)[JIVASZTE_LINE], int32_t *output,
                               size_t count);
uint32_t jivaszte_strings_store(const uint32_t (*heads)[JIVASZTE_HEAD], const int32_t (*lines)[JIVASZTE_LINE],
                                uint32_t string, uint8_t *bytes, size_t room, size_t *length);
uint32_t jivaszte_strings_load(uint32_t (*heads)[JIVASZTE_HEAD], int32_t (*lines)[JIVASZTE_LINE], uint32_t string,
                               const uint8_t *bytes, size_t length);

/* Makes six strings of whatever the memory held: each holds the refusal voice, as after an opening that was refused. */
static inline void jivaszte_instrument_reset(jivaszte_instrument *instrument)
{
    jivaszte_strings_reset(instrument->heads, instrument->lines);
}

/* The calls on one string, 0 to 5. Each refuses first by 24 where there is no such string, and then changes nothing; else
   it is the call of the same name on a voice, with that call's numbers. A refused opening leaves the refusal voice on its
   string. No call on one string alters another. */
static inline uint32_t jivaszte_instrument_open(jivaszte_instrument *instrument, uint32_t string, uint32_t order,
                                                uint32_t length, uint32_t delay, uint32_t loss, uint32_t advance)
{
    return jivaszte_strings_open(instrument->heads, instrument->lines, string, order, length, delay, loss, advance);
}

static inline uint32_t jivaszte_instrument_loss(jivaszte_instrument *instrument, uint32_t string, uint32_t loss)
{
    return jivaszte_strings_loss(instrument->heads, string, loss);
}

static inline uint32_t jivaszte_instrument_pluck(jivaszte_instrument *instrument, uint32_t string, uint32_t amplitude,
                                                 uint32_t count, uint32_t seed)
{
    return jivaszte_strings_pluck(instrument->heads, string, amplitude, count, seed);
}

static inline uint32_t jivaszte_instrument_announce(jivaszte_instrument *instrument, uint32_t string, uint32_t order,
                                                    uint32_t length, uint32_t delay)
{
    return jivaszte_strings_announce(instrument->heads, string, order, length, delay);
}

/* count is 0 where it is refused. */
static inline uint32_t jivaszte_instrument_instant(jivaszte_instrument *instrument, uint32_t string, uint32_t order,
                                                   uint32_t length, uint32_t delay, uint32_t *count)
{
    return jivaszte_strings_instant(instrument->heads, (const int32_t(*)[JIVASZTE_LINE])instrument->lines, string, order,
                                    length, delay, count);
}

static inline uint32_t jivaszte_instrument_ask(jivaszte_instrument *instrument, uint32_t string, uint32_t order,
                                               uint32_t length, uint32_t delay)
{
    return jivaszte_strings_ask(instrument->heads, string, order, length, delay);
}

static inline uint32_t jivaszte_instrument_commit(jivaszte_instrument *instrument, uint32_t string)
{
    return jivaszte_strings_commit(instrument->heads, string);
}

static inline uint32_t jivaszte_instrument_withdraw(jivaszte_instrument *instrument, uint32_t string)
{
    return jivaszte_strings_withdraw(instrument->heads, string);
}

/* A block of all six: an output for each input, samples of them, into a room as long. Refuses by 9, 10, of the whole
   input before anything is done; then no string moves and the output is untouched. */
static inline uint32_t jivaszte_instrument_mix(jivaszte_instrument *instrument, const int32_t *input, size_t samples,
                                               int32_t *output, size_t room)
{
    return jivaszte_strings_mix(instrument->heads, instrument->lines, input, samples, output, room);
}

/* A mix of zeros, count of them, for hosts that feed nothing: never refused. */
static inline uint32_t jivaszte_instrument_play(jivaszte_instrument *instrument, int32_t *output, size_t count)
{
    return jivaszte_strings_play(instrument->heads, instrument->lines, output, count);
}

/* Stores a string, 0 to 5, as jivaszte_voice_store stores a voice; the bytes are those of that voice, which
   jivaszte_voice_load takes too. Refuses by 24, 18, and then length is 0, and no byte is touched. */
static inline uint32_t jivaszte_instrument_store(const jivaszte_instrument *instrument, uint32_t string, uint8_t *bytes,
                                                 size_t room, size_t *length)
{
    return jivaszte_strings_store(instrument->heads, instrument->lines, string, bytes, room, length);
}

/* Loads a stored voice into a string, as jivaszte_voice_load loads one. Refuses by 24, and then changes nothing, or by 22,
   23, and then leaves the refusal voice on the string. */
static inline uint32_t jivaszte_instrument_load(jivaszte_instrument *instrument, uint32_t string, const uint8_t *bytes,
                                                size_t length)
{
    return jivaszte_strings_load(instrument->heads, instrument->lines, string, bytes, length);
}

/* Plays a score on a voice of its own, whose order its changes keep. Refuses by 14, those of the opening (1, 2, 3, 5),
   and at a record by 14, 15, 16, 2, 3, 6, 7, 8. place is the index of the record that was refused, the count of records
   after success, and 0 for the header; written is how many samples of the output the run has filled, also where it was
   refused. */
uint32_t jivaszte_run(const uint8_t *score, size_t length, int32_t *output, size_t room, size_t *place, size_t *written);

/* Merges two scores with one header into the bytes lent: every record of both, each at its own sample and with the
   values that its own score would use. At equal samples the first score's records come first. length is how many bytes
   the merge has; nothing past them is touched. Refuses by 28 where the first 8 bytes differ (a missing byte is unlike any
   present one), by 29 where a score does not play to its end given output enough, and by 30 where the merge does not, or
   is longer than the room; then length is 0, and no byte is touched. */
uint32_t jivaszte_merge(const uint8_t *first, size_t n, const uint8_t *second, size_t m, uint8_t *bytes, size_t room,
                        size_t *length);

/* How many bytes a WAV file of so many samples has: the header, three bytes a sample, and a pad byte. */
#define JIVASZTE_WAV_SIZE(samples) (44 + 3 * (size_t)(samples) + (size_t)(samples) % 2)

/* Writes samples at a rate, 8,000 to 192,000 a second, as a WAV file (RIFF WAVE, PCM, one channel, 24 bits) of at most
   1,000,000 samples. bytes is how many bytes of the file's room it has filled; nothing past them is touched. Refuses by
   17, 18, 10, and then touches nothing of the file's room. */
uint32_t jivaszte_wav_write(uint32_t rate, const int32_t *samples, size_t count, uint8_t *file, size_t room, size_t *bytes);

/* Reads such a file: its rate, and its samples, count of them. A stored -8,388,608 reads as -8,388,607, so that all that
   is read is block input. Nothing past the samples is touched. Refuses by 19, 17, 18, and then touches no sample. */
uint32_t jivaszte_wav_read(const uint8_t *file, size_t length, int32_t *samples, size_t room, uint32_t *rate, size_t *count);

/* A junction of two tubes that the host keeps, 64 bytes. Its words are for the routines below alone. A host owes three
   things: a junction is opened before anything else is called on it, nothing but these routines writes to it, and one
   thread at a time uses it. It may be copied, which makes a second junction. */
#define JIVASZTE_JUNCTION_WORDS 16
typedef struct {
    uint32_t words[JIVASZTE_JUNCTION_WORDS];
} jivaszte_junction;

/* Opens a junction at rest, whatever the memory held: the areas of the left and the right tube, 1 to 65,535; the delay of
   the filter over what comes from the left, in 1/4,096 of a sample, 2,049 to 6,143 (that over what comes from the right
   has 8,192 less it); and the advance of a move, at most 64. Refuses by 25, 3, 5, and then leaves areas 1 and 1, delay
   4,096 and advance 0. */
uint32_t jivaszte_junction_open(jivaszte_junction *junction, uint32_t left_area, uint32_t right_area, uint32_t delay,
                                uint32_t advance);

/* Announces another delay, which takes effect when second copies of both filters have taken as many samples as the
   advance; with an advance of 0 at once. Refuses by 3, 6, and then leaves the junction as it was. */
uint32_t jivaszte_junction_move(jivaszte_junction *junction, uint32_t delay);

/* Takes a sample from the left and one from the right, and gives what goes to the right and to the left. Refuses by 10,
   and then gives 0 and 0 and leaves the junction as it was. */
uint32_t jivaszte_junction_sample(jivaszte_junction *junction, int32_t from_left, int32_t from_right, int32_t *to_right,
                                  int32_t *to_left);

/* The length and the delay of a delay in samples, rounded to 1/4,096 of a sample, a half upward, and split as a note's
   period is. Refuses by 1, 26, 13, and then gives 0 and 0. */
uint32_t jivaszte_split(uint32_t order, float samples, uint32_t *length, uint32_t *delay);

/* A frame of an instrument: strings 0 to 2 left and 3 to 5 right, each side from -1 to 1. */
typedef struct {
    float left;
    float right;
} jivaszte_frame;

/* The routines behind an instrument's floats, over its two fields. */
uint32_t jivaszte_strings_event_delay(uint32_t (*heads)[JIVASZTE_HEAD], uint32_t string, float samples);
uint32_t jivaszte_strings_event_loss(uint32_t (*heads)[JIVASZTE_HEAD], uint32_t string, float loss);
jivaszte_frame jivaszte_strings_frame(uint32_t (*heads)[JIVASZTE_HEAD], int32_t (*lines)[JIVASZTE_LINE], float sample,
                                      uint32_t *number);

/* A host's delay in samples, rounded and split as above: an announced change of the string, its order kept. Refuses by 24,
   26, 13, 6, and then nothing changes. */
static inline uint32_t jivaszte_instrument_event_delay(jivaszte_instrument *instrument, uint32_t string, float samples)
{
    return jivaszte_strings_event_delay(instrument->heads, string, samples);
}

/* A host's loss, 0 to 1, rounded to 1/65,536, a half upward, and at most 65,535: the string's loss call. Refuses by 24, 26,
   27, and then nothing changes. */
static inline uint32_t jivaszte_instrument_event_loss(jivaszte_instrument *instrument, uint32_t string, float loss)
{
    return jivaszte_strings_event_loss(instrument->heads, string, loss);
}

/* Takes one sample, -1 to 1, for all six strings, rounded to 1/2^23, a half upward, and gives one frame. number is 0, or 26
   or 27 where the sample is refused: then the frame is 0, 0 and nothing changes. */
static inline jivaszte_frame jivaszte_instrument_frame(jivaszte_instrument *instrument, float sample, uint32_t *number)
{
    return jivaszte_strings_frame(instrument->heads, instrument->lines, sample, number);
}

#ifdef __cplusplus
}
#endif

#endif
