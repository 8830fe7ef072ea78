/* What an instance of the plugin keeps: ports, the strings, and what save needs. */
#ifndef PLUGIN_H
#define PLUGIN_H

#include "instrument.h"
#include <lv2/atom/atom.h>
#include <lv2/log/logger.h>
#include <lv2/state/state.h>
#include <stdatomic.h>

#define PLUGIN_URI "https://jivaszte.example/lv2"

enum { EVENTS, LEFT, RIGHT, IN, LOSS, RELEASE, ADVANCE, ORDER, PEDAL, BEND_RANGE, LEVEL, REFUSED, PORTS };
enum { NO_SNAPSHOT, WANTED, READY };

typedef struct {
    const LV2_Atom_Sequence *events;
    float *left, *right, *refused;
    const float *in, *control[PORTS];
    LV2_URID midi, chunk, strings;
    LV2_Log_Logger logger;
    bool restored; /* activate leaves these strings as they are */
    atomic_uint turn;
    atomic_int handed; /* NO_SNAPSHOT to READY */
    instrument live, snapshot, copy;
    uint8_t bytes[STATE_MOST];
} plugin;

extern const LV2_State_Interface plugin_state;

#endif
