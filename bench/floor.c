/* The floor of bench/floor: some rows of bench.c's table, each of which must reach `least` of C's speed. A row that does not
   is timed once more, since other work on the machine can slow a few rounds. Exit status 0 only where every row reaches
   it and every sample agrees. */
#include "bench.h"
#include <stdio.h>

/* A loop that is not compiled into its caller has 0.57 to 0.68 of C's speed. Each order has its loops with nothing
   waiting, with an input and with an asked change; that of order 3 with a change of order 3 is the one that LLVM
   leaves out first. */
static Row rows[] = {
    { .group = SCORE, .order = 1, .to = 1, .wait = 1024, .change = NO_CHANGE },
    { .group = SCORE, .order = 2, .to = 2, .wait = 1024, .change = NO_CHANGE },
    { .group = SCORE, .order = 3, .to = 3, .wait = 1024, .change = NO_CHANGE },
    { .group = SCORE, .order = 3, .to = 3, .wait = 64, .change = ANNOUNCED_CHANGE },
    { .group = ASK, .order = 1, .to = 1, .wait = 1024, .change = ASKED_CHANGE },
    { .group = ASK, .order = 2, .to = 2, .wait = 1024, .change = ASKED_CHANGE },
    { .group = ASK, .order = 3, .to = 3, .wait = 1024, .change = ASKED_CHANGE },
    { .group = FED, .order = 1, .to = 1, .wait = 1024, .change = NO_CHANGE },
    { .group = FED, .order = 2, .to = 2, .wait = 1024, .change = NO_CHANGE },
    { .group = FED, .order = 3, .to = 3, .wait = 1024, .change = NO_CHANGE },
};

enum { FLOOR_ROWS = sizeof rows / sizeof rows[0] };

/* What a row must reach. With input in order 2 an Intel Xeon has 0.75 and an AMD EPYC 0.84, and the loop that is not compiled
   in 0.57: its floor lies between. */
static double least(const Row *r)
{
    return r->group == FED && r->order == 2 ? 0.66 : 0.75;
}

static void print_name(const Row *r)
{
    static const char *const names[GROUPS] = { [SCORE] = "score", [ASK] = "blocks with an asked change",
                                               [FED] = "blocks with input" };
    printf("%s, order %u%s, %u samples each", names[r->group], r->order,
           r->change == ANNOUNCED_CHANGE ? ", announced changes" : "", r->wait);
}

/* All rounds of a row, from none. */
static void time_rounds(Row *r)
{
    r->rounds = 0;
    while (r->rounds < ROUNDS)
        r->agree &= time_row(r);
}

/* Times a row, and once more where it is too slow; prints what was found, and returns whether the row passes. */
static int passes(Row *r)
{
    r->agree = 1;
    time_rounds(r);
    print_name(r);
    printf(": %.2f of C's speed", ratio(r));
    if (ratio(r) < least(r)) {
        time_rounds(r);
        printf(", and %.2f when timed again", ratio(r));
    }
    if (!r->agree)
        printf("; NOT ALL SAMPLES AGREE");
    else if (ratio(r) < least(r))
        printf("; TOO SLOW: the floor is %.2f", least(r));
    printf("\n");
    return r->agree && ratio(r) >= least(r);
}

int main(void)
{
    int failed = 0;
    for (int i = 0; i < FLOOR_ROWS; i++)
        failed += !passes(&rows[i]);
    if (failed)
        printf("%d of %d rows failed. If the code of a loop changed, see whether LLVM still compiles the loop into its "
               "caller: docs/PERFORMANCE.md, \"The floor\".\n", failed, FLOOR_ROWS);
    return failed ? 1 : 0;
}
