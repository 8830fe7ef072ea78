/* saves URI: saves in one thread while another runs blocks. Each state must be one that a block's end has. */
#include "host.h"
#include <lv2/state/state.h>
#include <pthread.h>
#include <stdatomic.h>
#include <stdio.h>
#include <stdlib.h>

enum { BLOCKS = 3000, BLOCK = 1024 };

static uint64_t hash;
static LV2_State_Status store(LV2_State_Handle h, uint32_t key, const void *value, size_t n, uint32_t type, uint32_t flags)
{
    (void)h, (void)key, (void)type, (void)flags;
    hash = 1469598103934665603u;
    for (size_t i = 0; i < n; i++)
        hash = (hash ^ ((const uint8_t *)value)[i]) * 1099511628211u;
    return LV2_STATE_SUCCESS;
}

static uint64_t saved(player *p)
{
    const LV2_State_Interface *state = lilv_instance_get_extension_data(p->instance, LV2_STATE__interface);
    state->save(lilv_instance_get_handle(p->instance), store, NULL, 0, features);
    return hash;
}

/* Six strings that ring for ever, so that each state differs from the others. */
static void start(player *p)
{
    static take into;
    static events chord;
    chord.count = 0;
    for (int k = 0; k < 6; k++)
        host_event(&chord, (uint32_t)k, 0x91 + k, 40 + 5 * k, 100);
    player_make(p, RATE);
    p->values[LOSS] = 1;
    player_start(p);
    player_run(p, &chord, 0, BLOCK, BLOCK, &into, false);
}

static void block(player *p)
{
    static const events none;
    static take into;
    player_run(p, &none, 0, BLOCK, BLOCK, &into, false);
}

static atomic_int over;
static void *runner(void *p)
{
    for (int b = 0; b < BLOCKS; b++)
        block(p);
    atomic_store(&over, 1);
    return NULL;
}

static int order(const void *a, const void *b)
{
    const uint64_t x = *(const uint64_t *)a, y = *(const uint64_t *)b;
    return (x > y) - (x < y);
}

int main(int count, char **arguments)
{
    (void)count;
    static uint64_t all[BLOCKS + 1];
    player alone, busy;
    host_open(arguments[1]);
    start(&alone);
    all[0] = saved(&alone);
    for (int b = 1; b <= BLOCKS; b++) {
        block(&alone);
        all[b] = saved(&alone);
    }
    qsort(all, BLOCKS + 1, sizeof *all, order);
    start(&busy);
    pthread_t thread;
    pthread_create(&thread, NULL, runner, &busy);
    int saves = 0, torn = 0;
    while (!atomic_load(&over)) {
        const uint64_t found = saved(&busy);
        saves++;
        torn += !bsearch(&found, all, BLOCKS + 1, sizeof *all, order);
    }
    pthread_join(thread, NULL);
    printf("saves: %d while it ran, %d of them no state of a block's end\n", saves, torn);
    return torn != 0 || saves == 0;
}
