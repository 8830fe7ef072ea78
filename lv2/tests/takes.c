/* takes URI [SEED]: a fixed and a random list of events at several block lengths, which must give one take each, bit for
   bit; saved and resumed in the middle; the fixed one beside the same calls made through the library (calls.c); no
   allocation in run, its stack; then rules.c and states.c. */
#include "parts.h"
#include <jivaszte.h>
#include <lv2/state/state.h>
#include <stdio.h>
#include <stdlib.h>

static int wrong;
void expect(bool holds, const char *what)
{
    if (!holds) {
        printf("WRONG: %s\n", what);
        wrong++;
    }
}

static LilvState *saved(player *p)
{
    return lilv_state_new_from_instance(plugin, p->instance, &map, NULL, NULL, NULL, NULL, NULL, NULL,
                                        LV2_STATE_IS_POD | LV2_STATE_IS_PORTABLE, NULL);
}

/* Plays up to the cut, saves as text, and goes on from the text in another instance. */
static void resumed(const events *list, const take *whole, uint32_t cut, float pedal)
{
    static take after;
    player first, second;
    player_make(&first, RATE);
    first.values[PEDAL] = pedal;
    player_start(&first);
    player_run(&first, list, 0, cut, 256, &after, false);
    LilvState *state = saved(&first);
    char *text = lilv_state_to_string(world, &map, &unmap, state, "https://jivaszte.example/saved", NULL);
    LilvState *read = lilv_state_new_from_string(world, &map, text);
    player_make(&second, RATE);
    second.values[PEDAL] = pedal;
    lilv_state_restore(read, second.instance, NULL, NULL, 0, features);
    player_start(&second);
    player_run(&second, list, cut, FRAMES, 256, &after, false);
    expect(same(whole, &after, cut, FRAMES), "a take that was saved and resumed differs");
    free(text);
    lilv_state_free(state);
    lilv_state_free(read);
    player_end(&first);
    player_end(&second);
}

static void all_lengths(const char *name, const events *list, take *whole, float pedal, float order)
{
    static const uint32_t lengths[] = { 256, 1, 7, 64, 1000, 8192 };
    static take other;
    float refused = 0;
    for (int k = 0; k < 6; k++) {
        player p;
        player_make(&p, RATE);
        p.values[PEDAL] = pedal;
        p.values[ORDER] = order;
        player_start(&p);
        const size_t stack = player_run(&p, list, 0, FRAMES, lengths[k], k ? &other : whole, k == 0);
        expect(k == 0 || same(whole, &other, 0, FRAMES), "a take depends on the block length");
        refused = p.values[REFUSED];
        if (k == 0)
            printf("%s: sum %016llx, %g calls refused, stack of a thread with run %zu bytes\n", name,
                   (unsigned long long)sum(whole), refused, stack);
        expect(k != 0 || (stack > 0 && stack < 65536), "run takes 64 KB of stack or more");
        player_end(&p);
    }
    expect(allocations == 0, "run allocates");
}

int main(int count, char **arguments)
{
    static events fixed, chance;
    static take whole, other;
    const unsigned seed = count > 2 ? (unsigned)atoi(arguments[2]) : 1;
    host_open(arguments[1]);
    expect(host_seen_allocations() == 1, "allocations are not counted");
    fixed_list(&fixed);
    random_list(&chance, seed);
    all_lengths("fixed", &fixed, &whole, 0, 1);
    expect(peak(&whole, 0, FRAMES) > 0.05f, "nothing sounds");
    expect(played_by_calls(&fixed, &other) && same(&whole, &other, 0, FRAMES), "the library's own calls give another take");
    for (uint32_t cut = 30000; cut < 120000; cut += 20011)
        resumed(&fixed, &whole, cut, 0);
    for (int pedal = 0; pedal < 2; pedal++) {
        all_lengths(pedal ? "random, pedal commits" : "random", &chance, &whole, (float)pedal, (float)(1 + seed % 3));
        all_lengths(pedal ? "random, pedal commits, order 1" : "random, order 1", &chance, &whole, (float)pedal, 1);
        for (uint32_t cut = 10007; cut < 120000; cut += 30011)
            resumed(&chance, &whole, cut, (float)pedal);
    }
    pedal_commits();
    input_is_clamped();
    chord_does_not_clip();
    low_note_is_refused();
    expect(bad_states() == 0, "a state that must be refused is taken");
    printf("takes: %s\n", wrong ? "WRONG" : "all equal");
    return wrong != 0;
}
