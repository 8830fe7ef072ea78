/* Instances that play in blocks: see host.h. */
#include "host.h"
#include <lv2/atom/util.h>
#include <lv2/midi/midi.h>
#include <pthread.h>
#include <stdio.h>
#include <stdlib.h>
#include <string.h>

static union {
    LV2_Atom_Sequence sequence;
    uint8_t room[1 << 17];
} box;

void player_make(player *p, double rate)
{
    *p = (player){ lilv_plugin_instantiate(plugin, rate, features), { 0 }, NULL };
    if (!p->instance)
        exit((puts("no instance"), 1));
    lilv_plugin_get_port_ranges_float(plugin, NULL, NULL, p->values);
    lilv_instance_connect_port(p->instance, EVENTS, &box);
    lilv_instance_connect_port(p->instance, IN, NULL);
    for (uint32_t port = LOSS; port <= REFUSED; port++)
        lilv_instance_connect_port(p->instance, port, &p->values[port]);
}

void player_start(player *p) { lilv_instance_activate(p->instance); }

void player_end(player *p)
{
    lilv_instance_deactivate(p->instance);
    lilv_instance_free(p->instance);
}

typedef struct {
    LilvInstance *instance;
    uint32_t frames;
} turn;
static void *run(void *given)
{
    turn *t = given;
    running = 1;
    lilv_instance_run(t->instance, t->frames);
    running = 0;
    return NULL;
}

/* What a thread that runs once leaves unpainted of its stack. */
static size_t run_measured(turn *t)
{
    enum { PAINT = 0x5a, STACK = 1 << 20 };
    static _Alignas(4096) uint8_t stack[STACK];
    pthread_attr_t attributes;
    pthread_t thread;
    memset(stack, PAINT, STACK);
    pthread_attr_init(&attributes);
    pthread_attr_setstack(&attributes, stack, STACK);
    pthread_create(&thread, &attributes, run, t);
    pthread_join(thread, NULL);
    size_t low = 0;
    while (low < STACK && stack[low] == PAINT)
        low++;
    return STACK - low;
}

size_t player_run(player *p, const events *list, uint32_t from, uint32_t to, uint32_t n, take *into, bool measure)
{
    const LV2_URID midi = host_map(LV2_MIDI__MidiEvent);
    int next = 0;
    size_t most = 0;
    while (next < list->count && list->list[next].at < from)
        next++;
    for (uint32_t at = from; at < to;) {
        const uint32_t m = to - at < n ? to - at : n;
        box.sequence.atom = (LV2_Atom){ sizeof(LV2_Atom_Sequence_Body), host_map(LV2_ATOM__Sequence) };
        box.sequence.body = (LV2_Atom_Sequence_Body){ 0, 0 };
        for (; next < list->count && list->list[next].at < at + m; next++) {
            struct {
                LV2_Atom_Event event;
                uint8_t message[8];
            } e = { { { list->list[next].at - at }, { 3, midi } }, { 0 } };
            memcpy(e.message, list->list[next].message, 3);
            if (!lv2_atom_sequence_append_event(&box.sequence, sizeof box - sizeof(LV2_Atom), &e.event))
                exit((puts("the events do not fit"), 1));
        }
        lilv_instance_connect_port(p->instance, LEFT, into->left + at);
        lilv_instance_connect_port(p->instance, RIGHT, into->right + at);
        if (p->in)
            lilv_instance_connect_port(p->instance, IN, p->in + at);
        turn t = { p->instance, m };
        if (measure && at == from + n)
            most = run_measured(&t);
        else
            run(&t);
        at += m;
    }
    return most;
}

bool same(const take *a, const take *b, uint32_t from, uint32_t to)
{
    const size_t bytes = (to - from) * sizeof(float);
    return !memcmp(a->left + from, b->left + from, bytes) && !memcmp(a->right + from, b->right + from, bytes);
}

uint64_t sum(const take *a)
{
    uint64_t hash = 1469598103934665603u;
    for (size_t i = 0; i < sizeof *a; i++)
        hash = (hash ^ ((const uint8_t *)a)[i]) * 1099511628211u;
    return hash;
}
