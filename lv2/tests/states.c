/* States that must be refused: cut, changed, of another rate. After each the strings are at rest and play on. */
#include "parts.h"
#include <lv2/atom/atom.h>
#include <lv2/state/state.h>
#include <stdio.h>
#include <stdlib.h>
#include <string.h>

static uint8_t kept[65536];
static size_t length;

static LV2_State_Status keep(LV2_State_Handle h, uint32_t key, const void *value, size_t size, uint32_t type, uint32_t flags)
{
    (void)h, (void)key, (void)type, (void)flags;
    memcpy(kept, value, length = size);
    return LV2_STATE_SUCCESS;
}

static const void *give(LV2_State_Handle h, uint32_t key, size_t *size, uint32_t *type, uint32_t *flags)
{
    (void)key;
    *size = length;
    *type = host_map(LV2_ATOM__Chunk);
    *flags = LV2_STATE_IS_POD | LV2_STATE_IS_PORTABLE;
    return h;
}

/* 0 where the bytes are refused as they must be, or taken. */
static int tried(double rate, bool refused, bool ringing)
{
    static const events none;
    static take heard;
    player p;
    player_make(&p, rate);
    const LV2_State_Interface *state = lilv_instance_get_extension_data(p.instance, LV2_STATE__interface);
    const bool taken = state->restore(lilv_instance_get_handle(p.instance), give, kept, 0, features) == LV2_STATE_SUCCESS;
    player_start(&p);
    player_run(&p, &none, 0, 2000, 64, &heard, false);
    bool sounds = false;
    for (int i = 0; i < 2000; i++)
        sounds = sounds || heard.left[i] != 0 || heard.right[i] != 0;
    player_end(&p);
    return !(taken != refused && sounds == ringing);
}

int bad_states(void)
{
    static events list;
    static take heard;
    int wrong = 0;
    player p;
    for (int k = 0; k < 6; k++)
        host_event(&list, 100 + (uint32_t)k, 0x91 + k, 45 + 5 * k, 100);
    host_event(&list, 4990, 0xe1, 0, 80);
    player_make(&p, RATE);
    player_start(&p);
    player_run(&p, &list, 0, 5000, 64, &heard, false);
    const LV2_State_Interface *state = lilv_instance_get_extension_data(p.instance, LV2_STATE__interface);
    state->save(lilv_instance_get_handle(p.instance), keep, NULL, 0, features);
    player_end(&p);
    printf("state: %zu bytes\n", length);
    wrong += tried(RATE, false, true);
    wrong += tried(44100, true, false);
    const size_t whole = length;
    for (length = 0; length < whole; length += length < 300 ? 1 : 997)
        wrong += tried(RATE, true, false);
    length = whole + 1;
    wrong += tried(RATE, true, false);
    length = whole;
    kept[0] ^= 1; /* another form */
    wrong += tried(RATE, true, false);
    kept[0] ^= 1;
    kept[64 + 15] ^= 0x80; /* a string does what there is not */
    wrong += tried(RATE, true, false);
    kept[64 + 15] ^= 0x80;
    /* any other byte: taken or refused, but safe */
    for (size_t at = 64; at < whole; at += 101) {
        kept[at] ^= 0xff;
        (void)tried(RATE, true, false);
        kept[at] ^= 0xff;
    }
    wrong += tried(RATE, false, true);
    return wrong;
}
