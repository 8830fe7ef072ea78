/* Jivaszte as an LV2 instrument. run neither allocates nor locks nor opens a file, and its loops are bounded by the frames
   and events of its block. */
#include "plugin.h"
#include <lv2/atom/util.h>
#include <lv2/core/lv2_util.h>
#include <lv2/midi/midi.h>
#include <math.h>
#include <stdlib.h>
#include <string.h>

/* A control's value; what is not connected or no number counts as the least. */
static double control(const plugin *p, int port, double low, double high)
{
    const double x = p->control[port] ? *p->control[port] : low;
    return x >= low ? (x <= high ? x : high) : low;
}

static uint32_t loss(const plugin *p, int port)
{
    return (uint32_t)fmin(65535, floor(65536 * control(p, port, 0, 1) + 0.5));
}

static settings read_settings(const plugin *p)
{
    return (settings){ loss(p, LOSS), loss(p, RELEASE), (uint32_t)control(p, ORDER, 1, 3), control(p, BEND_RANGE, 0, 96),
                       control(p, LEVEL, 0, 1), control(p, PEDAL, 0, 1) >= 0.5 };
}

static void run(LV2_Handle handle, uint32_t frames)
{
    plugin *p = handle;
    const settings set = read_settings(p);
    atomic_fetch_add(&p->turn, 1);
    uint32_t at = 0;
    LV2_ATOM_SEQUENCE_FOREACH (p->events, event) {
        if (event->body.type != p->midi)
            continue;
        const int64_t time = event->time.frames;
        const uint32_t to = time < at ? at : time > frames ? frames : (uint32_t)time;
        instrument_frames(&p->live, &set, p->in ? p->in + at : NULL, p->left + at, p->right + at, to - at);
        at = to;
        instrument_settle(&p->live, &set, 1);
        instrument_midi(&p->live, &set, (const uint8_t *)(event + 1), event->body.size);
    }
    instrument_frames(&p->live, &set, p->in ? p->in + at : NULL, p->left + at, p->right + at, frames - at);
    if (p->refused)
        *p->refused = (float)p->live.refused;
    if (atomic_load(&p->handed) == WANTED) {
        p->snapshot = p->live;
        atomic_store(&p->handed, READY);
    }
    atomic_fetch_add(&p->turn, 1);
}

/* The advance is that of an opening, so that it is read here. */
static void activate(LV2_Handle handle)
{
    plugin *p = handle;
    const settings set = read_settings(p);
    if (!p->restored)
        instrument_open(&p->live, p->live.rate, (uint32_t)control(p, ADVANCE, 0, 64), &set);
    p->restored = false;
}

static LV2_Handle instantiate(const LV2_Descriptor *descriptor, double rate, const char *bundle,
                              const LV2_Feature *const *features)
{
    (void)descriptor, (void)bundle;
    LV2_URID_Map *map = NULL;
    LV2_Log_Log *log = NULL;
    const char *missing = lv2_features_query(features, LV2_LOG__log, &log, false, LV2_URID__map, &map, true, NULL);
    plugin *p = missing || !(rate >= 8000 && rate <= 192000) ? NULL : calloc(1, sizeof *p);
    if (!p)
        return NULL;
    lv2_log_logger_init(&p->logger, map, log);
    p->midi = map->map(map->handle, LV2_MIDI__MidiEvent);
    p->chunk = map->map(map->handle, LV2_ATOM__Chunk);
    p->strings = map->map(map->handle, PLUGIN_URI "#strings");
    instrument_open(&p->live, (uint32_t)(rate + 0.5), 64, &(settings){ .loss = 65405, .order = 1 });
    return p;
}

static void connect_port(LV2_Handle handle, uint32_t port, void *data)
{
    plugin *p = handle;
    switch (port) {
    case EVENTS: p->events = data; break;
    case LEFT: p->left = data; break;
    case RIGHT: p->right = data; break;
    case IN: p->in = data; break;
    case REFUSED: p->refused = data; break;
    default: if (port < PORTS) p->control[port] = data;
    }
}

static void cleanup(LV2_Handle handle) { free(handle); }

static const void *extension_data(const char *uri)
{
    return strcmp(uri, LV2_STATE__interface) ? NULL : &plugin_state;
}

LV2_SYMBOL_EXPORT const LV2_Descriptor *lv2_descriptor(uint32_t index)
{
    static const LV2_Descriptor descriptor = { PLUGIN_URI, instantiate, connect_port, activate, run, NULL, cleanup,
                                               extension_data };
    return index ? NULL : &descriptor;
}
