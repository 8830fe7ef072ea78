/* The lists of events that are played: a fixed one, and a random one. */
#include "parts.h"
#include <stdlib.h>

/* One string a channel; bends nearer to each other than the advance, and notes and releases among them. */
void fixed_list(events *list)
{
    static const int chord[] = { 40, 45, 50, 55, 59, 64 };
    for (int k = 0; k < 6; k++)
        host_event(list, 1000 + 2400 * (uint32_t)k, 0x91 + k, chord[k], 100);
    for (int i = 0; i < 1000; i++) {
        const int bend = 8192 + 8 * i;
        host_event(list, 24000 + 17 * (uint32_t)i, 0xe6, bend & 127, bend >> 7);
        if (i % 100 == 50) /* while the bend before it waits */
            host_event(list, 24000 + 17 * (uint32_t)i + 3, 0x96, 64 + i / 100, 90);
    }
    host_event(list, 60000, 0x86, 73, 0);
    for (int k = 0; k < 6; k++)
        host_event(list, 72000 + (uint32_t)k, 0x91 + k, chord[k] + 3, 80);
    for (int k = 0; k < 6; k++)
        host_event(list, 100000, 0x81 + k, chord[k] + 3, 0);
}

void random_list(events *list, unsigned seed)
{
    uint32_t at = 0;
    srand(seed);
    for (int n = 0; n < 4000; n++) {
        at += rand() % 4 ? (uint32_t)rand() % 60 : 0;
        const int channel = rand() % 3 ? rand() % 8 : 0, kind = rand() % 10;
        if (kind < 4)
            host_event(list, at, 0x90 + channel, 36 + rand() % 50, rand() % 128);
        else if (kind < 6)
            host_event(list, at, 0x80 + channel, 36 + rand() % 50, 0);
        else if (kind < 8)
            host_event(list, at, 0xe0 + channel, rand() % 128, rand() % 128);
        else
            host_event(list, at, 0xb0 + channel, kind == 8 || rand() % 20 ? 64 : rand() % 2 ? 120 : 123, rand() % 128);
    }
}
