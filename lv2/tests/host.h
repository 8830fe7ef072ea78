/* A host without a screen, over lilv: makes instances of the plugin, plays lists of events in blocks, counts what run
   allocates and measures its stack. */
#ifndef HOST_H
#define HOST_H
#include <lilv/lilv.h>
#include <lv2/urid/urid.h>
#include <stdbool.h>
#include <stdint.h>

enum { RATE = 48000, FRAMES = 3 * RATE, MOST_EVENTS = 8192 };
enum { EVENTS, LEFT, RIGHT, IN, LOSS, RELEASE, ADVANCE, ORDER, PEDAL, BEND, LEVEL, REFUSED };

typedef struct {
    uint32_t at;
    uint8_t message[3];
} event;

typedef struct {
    event list[MOST_EVENTS];
    int count;
} events;

typedef struct {
    LilvInstance *instance;
    float values[16];
    float *in;
} player;

typedef struct {
    float left[FRAMES], right[FRAMES];
} take;

extern LilvWorld *world;
extern const LilvPlugin *plugin;
extern LV2_URID_Map map;
extern LV2_URID_Unmap unmap;
extern const LV2_Feature *const features[];
extern int allocations; /* while a thread has running set, as it has in run */
extern _Thread_local int running;

void host_open(const char *uri);
uint32_t host_map(const char *uri);
/* How many allocations of an instantiation are counted: 1, if the counting works. */
int host_seen_allocations(void);
void host_event(events *list, uint32_t at, int status, int first, int second);

/* An instance at a rate, connected, with the default values; player_start activates it. */
void player_make(player *p, double rate);
void player_start(player *p);
void player_end(player *p);

/* Frames from..to of the events in blocks of n, into the take. Gives the stack of the second block's run, where it is
   measured, else 0. */
size_t player_run(player *p, const events *list, uint32_t from, uint32_t to, uint32_t n, take *into, bool measure);

bool same(const take *a, const take *b, uint32_t from, uint32_t to);
uint64_t sum(const take *a);
#endif
