/* The world, URIs, lists of events, and the counting of allocations: see host.h. */
#include "host.h"
#include <stdio.h>
#include <stdlib.h>
#include <string.h>

LilvWorld *world;
const LilvPlugin *plugin;
int allocations;
_Thread_local int running;

/* glibc's own allocator under its other names. */
extern void *__libc_malloc(size_t), *__libc_calloc(size_t, size_t), *__libc_realloc(void *, size_t);
void *malloc(size_t n) { return allocations += running, __libc_malloc(n); }
void *calloc(size_t n, size_t m) { return allocations += running, __libc_calloc(n, m); }
void *realloc(void *p, size_t n) { return allocations += running, __libc_realloc(p, n); }

static char *uris[1024];
static uint32_t uri_count;
uint32_t host_map(const char *uri)
{
    for (uint32_t i = 0; i < uri_count; i++)
        if (!strcmp(uris[i], uri))
            return i + 1;
    uris[uri_count++] = strdup(uri);
    return uri_count;
}
static LV2_URID map_uri(LV2_URID_Map_Handle h, const char *uri) { return (void)h, host_map(uri); }
static const char *unmap_uri(LV2_URID_Unmap_Handle h, LV2_URID u)
{
    return (void)h, u && u <= uri_count ? uris[u - 1] : NULL;
}
LV2_URID_Map map = { NULL, map_uri };
LV2_URID_Unmap unmap = { NULL, unmap_uri };
static const LV2_Feature map_feature = { LV2_URID__map, &map }, unmap_feature = { LV2_URID__unmap, &unmap };
const LV2_Feature *const features[] = { &map_feature, &unmap_feature, NULL };

void host_open(const char *uri)
{
    world = lilv_world_new();
    lilv_world_load_all(world);
    plugin = lilv_plugins_get_by_uri(lilv_world_get_all_plugins(world), lilv_new_uri(world, uri));
    if (!plugin)
        exit((printf("%s is not found\n", uri), 1));
}

void host_event(events *list, uint32_t at, int status, int first, int second)
{
    if (list->count == MOST_EVENTS)
        exit((puts("too many events"), 1));
    list->list[list->count++] = (event){ at, { (uint8_t)status, (uint8_t)first, (uint8_t)second } };
}

int host_seen_allocations(void)
{
    player p;
    player_make(&p, RATE);
    const LV2_Descriptor *descriptor = lilv_instance_get_descriptor(p.instance);
    const int before = allocations;
    running = 1;
    LV2_Handle handle = descriptor->instantiate(descriptor, RATE, "", features);
    running = 0;
    const int seen = allocations - before;
    allocations = before;
    descriptor->cleanup(handle);
    lilv_instance_free(p.instance);
    return seen;
}
