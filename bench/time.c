/* One round of a row: the proved voice against plain C over the same score or list, by turns. */
#include "../include/jivaszte.h"
#include "bench.h"
#include "plain.h"
#include <string.h>
#include <time.h>

enum { RUNS = 15 };

/* A score is short enough to be played within one turn that the system gives a program. */
static uint8_t score[1 << 18];
static size_t score_length;
static int32_t output[2][SAMPLES];

double seconds(void)
{
    struct timespec t;
    clock_gettime(CLOCK_THREAD_CPUTIME_ID, &t);
    return t.tv_sec + 1e-9 * t.tv_nsec;
}

/* Which of the two, 0 for C and 1 for the proved one: its run of the score, and how long it took. */
static double run(int which, Played *p)
{
    double from = seconds();
    p->refusal =
        (which ? jivaszte_run : plain_run)(score, score_length, output[which], SAMPLES, &p->place, &p->written);
    return seconds() - from;
}

/* The same of the list. */
static double perform(int which, Played *p)
{
    double from = seconds();
    perform_list(which, output[which], p);
    return seconds() - from;
}

/* Several runs of each in turn: the best times so far are kept, and what was done is told. 0 where the two differ. */
static int best_of(double (*timed)(int, Played *), double best[2], Played *done)
{
    Played p[2];
    memset(p, 0, sizeof p);
    memset(done, 0, sizeof *done);
    for (int i = 0; i < RUNS; i++) {
        memset(output[0], 90, sizeof output[0]);
        memset(output[1], 90, sizeof output[1]);
        for (int k = 0; k < 2; k++) {
            int which = (i + k) % 2;
            double t = timed(which, &p[which]);
            best[which] = best[which] == 0 || t < best[which] ? t : best[which];
        }
        if (memcmp(&p[0], &p[1], sizeof p[0]) || memcmp(output[0], output[1], sizeof output[0]))
            return 0;
    }
    *done = p[1];
    return 1;
}

/* How many of the samples written are not 0. */
static size_t sounding(size_t written)
{
    size_t n = 0;
    for (size_t i = 0; i < written; i++)
        n += output[1][i] != 0;
    return n;
}

/* What is played on a painted stack. */
static Played once;

static void run_once(void) { jivaszte_run(score, score_length, output[1], SAMPLES, &once.place, &once.written); }

static void perform_once(void) { perform_list(1, output[1], &once); }

int time_row(Row *r)
{
    Played p;
    int listed = r->group != SCORE;
    if (listed)
        make_list(r);
    else
        score_length = make_score(score, r);
    double best[2] = { 0, 0 };
    int same = best_of(listed ? perform : run, best, &p);
    for (int k = 0; k < 2; k++)
        r->best[k] = r->best[k] == 0 || best[k] < r->best[k] ? best[k] : r->best[k];
    r->ratios[r->rounds++] = best[0] / best[1];
    r->written = p.written;
    r->stack = stack_of(listed ? perform_once : run_once);
    same &= p.refusal == JIVASZTE_DONE && (p.place == 0 || !listed);
    return same && p.written > SAMPLES - r->wait && 2 * sounding(p.written) > p.written;
}
