/* Saves and restores the strings. A host may save while run is at work. So `turn` is odd while it is; a copy that was made
   while turn was even and stayed the same is the state at a block's end. Where save meets a run at work, it asks for a
   snapshot, which that run makes at its end and hands over. */
#include "plugin.h"
#include <string.h>
#include <time.h>

/* Makes p->copy the state at the end of a block. */
static void take(plugin *p)
{
    for (;;) {
        const unsigned before = atomic_load(&p->turn);
        if (before % 2 == 0) {
            memcpy(&p->copy, &p->live, sizeof p->copy);
            atomic_thread_fence(memory_order_acquire);
            if (atomic_load(&p->turn) == before)
                return;
        }
        atomic_store(&p->handed, WANTED);
        for (int tries = 0; tries < 1000; tries++) {
            if (atomic_load(&p->handed) == READY) {
                memcpy(&p->copy, &p->snapshot, sizeof p->copy);
                atomic_store(&p->handed, NO_SNAPSHOT);
                return;
            }
            nanosleep(&(struct timespec){ 0, 100000 }, NULL);
        }
        /* No run ended in a tenth of a second: the host has stopped, and the copy above will do. */
    }
}

static LV2_State_Status save(LV2_Handle handle, LV2_State_Store_Function store, LV2_State_Handle to, uint32_t flags,
                             const LV2_Feature *const *features)
{
    (void)flags, (void)features;
    plugin *p = handle;
    take(p);
    const size_t length = state_store(&p->copy, p->bytes);
    return store(to, p->strings, p->bytes, length, p->chunk, LV2_STATE_IS_POD | LV2_STATE_IS_PORTABLE);
}

static LV2_State_Status restore(LV2_Handle handle, LV2_State_Retrieve_Function retrieve, LV2_State_Handle from,
                                uint32_t flags, const LV2_Feature *const *features)
{
    (void)features;
    plugin *p = handle;
    size_t size = 0;
    uint32_t type = 0;
    const void *bytes = retrieve(from, p->strings, &size, &type, &flags);
    if (!bytes)
        return LV2_STATE_ERR_NO_PROPERTY;
    if (type != p->chunk)
        return LV2_STATE_ERR_BAD_TYPE;
    const char *why = state_load(&p->live, bytes, size);
    p->restored = true;
    if (!why)
        return LV2_STATE_SUCCESS;
    lv2_log_error(&p->logger, "jivaszte: the strings are not restored: %s (the host's rate is %u)\n", why, p->live.rate);
    return LV2_STATE_ERR_UNKNOWN;
}

const LV2_State_Interface plugin_state = { save, restore };
