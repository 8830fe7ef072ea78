/* The rows of the tables, and how bench.c prints them. */
#include "bench.h"
#include <stdio.h>
#include <stdlib.h>
#include <string.h>

static const uint32_t waits[WAITS] = { LEAST_WAIT, 1024, 65535 };

/* One row for each of the waits from a first one to a last one; returns the place after them. */
static Row *add_rows(Row *rows, int group, uint32_t order, uint32_t to, int change, int first, int last)
{
    for (int i = first; i <= last; i++)
        *rows++ = (Row){ .group = group, .order = order, .to = to, .change = change, .wait = waits[i], .agree = 1 };
    return rows;
}

void make_rows(Row *rows)
{
    static const uint32_t pairs[PAIRS][2] = { { 1, 2 }, { 1, 3 }, { 2, 3 } };
    for (int change = NO_CHANGE; change <= INSTANT_CHANGE; change++)
        for (uint32_t order = 1; order <= ORDERS; order++)
            rows = add_rows(rows, SCORE, order, order, change, 0, 2);
    for (uint32_t order = 1; order <= ORDERS; order++)
        rows = add_rows(rows, SILENCE, order, order, NO_CHANGE, 0, 1);
    for (int group = FED; group <= NOISE; group++)
        for (uint32_t order = 1; order <= ORDERS; order++)
            rows = add_rows(rows, group, order, order, NO_CHANGE, 1, 1);
    for (uint32_t order = 1; order <= ORDERS; order++)
        rows = add_rows(rows, ASK, order, order, ASKED_CHANGE, 0, 2);
    for (int change = ANNOUNCED_CHANGE; change <= ASKED_CHANGE; change++)
        for (int i = 0; i < PAIRS; i++)
            rows = add_rows(rows, ORDER, pairs[i][0], pairs[i][1], change, 0, 2);
}

static int compare(const void *a, const void *b)
{
    double x = *(const double *)a, y = *(const double *)b;
    return (x > y) - (x < y);
}

/* The ratios of a row's rounds, the least first. */
static void sorted(const Row *r, double ratios[ROUNDS])
{
    memcpy(ratios, r->ratios, sizeof r->ratios);
    qsort(ratios, r->rounds, sizeof ratios[0], compare);
}

double ratio(const Row *r)
{
    double ratios[ROUNDS];
    sorted(r, ratios);
    return (ratios[(r->rounds - 1) / 2] + ratios[r->rounds / 2]) / 2;
}

static void print_row(const Row *r)
{
    double ratios[ROUNDS];
    sorted(r, ratios);
    static const char *const changes[] = { "none", "announced", "instant", "asked" };
    static const char *const by[GROUPS] = { "score", "blocks", "blocks with input", "blocks of noise", "blocks", "blocks" };
    printf("| %s | %u", by[r->group], r->order);
    if (r->to != r->order)
        printf(", %u", r->to);
    printf(" | %s | %u | %.0f | %.0f | %.2f | %.2f to %.2f | %zu | %s |\n", changes[r->change], r->wait,
           r->written / r->best[0] / 1e6, r->written / r->best[1] / 1e6, ratio(r), ratios[0], ratios[ROUNDS - 1],
           r->stack, r->agree ? "yes" : "NO");
}

/* What a sample, a record and a change with its eliminator cost, in nanoseconds, from the rows of one order. */
static void print_costs(const Row *none, const Row *announced, const Row *instant)
{
    for (int k = 0; k < 2; k++) {
        double sample = none[2].best[k] / none[2].written, record = none[0].best[k] / none[0].written;
        double a = announced[0].best[k] / announced[0].written, i = instant[0].best[k] / instant[0].written;
        printf("| %u | %s | %.2f | %.0f | %.0f | %.0f |\n", none->order, k ? "proved" : "C", 1e9 * sample,
               64e9 * (record - sample), 64e9 * (a - record), 64e9 * (i - record));
    }
}

/* Prints the least ratio of a group's rows at waits of 64 or of more, if there are any. */
static void print_least(const Row *rows, int group, int more)
{
    double least = 1e9;
    for (const Row *r = rows; r < rows + ROWS; r++)
        if (r->group == group && (r->wait > LEAST_WAIT) == more && ratio(r) < least)
            least = ratio(r);
    if (least < 1e9)
        printf(" %.3f |", least);
    else
        printf(" |");
}

void print_rows(const Row *rows)
{
    static const char *const names[GROUPS] = { "scores", "blocks with no change", "blocks with input", "blocks of noise",
                                               "blocks with an asked change", "blocks with changes of the order" };
    printf("| by | order | changes | wait | C, million samples a second | proved | ratio | in the rounds | "
           "bytes of stack | all agree |\n");
    printf("|---|---|---|---|---|---|---|---|---|---|\n");
    for (int i = 0; i < ROWS; i++)
        print_row(&rows[i]);
    printf("\n| least ratio of | at waits of 64 | of 1,024 and more |\n|---|---|---|\n");
    for (int group = 0; group < GROUPS; group++) {
        printf("| %s |", names[group]);
        print_least(rows, group, 0);
        print_least(rows, group, 1);
        printf("\n");
    }
    printf("\n| order | nanoseconds of | a sample | a record | an announced change | an instant change |\n");
    printf("|---|---|---|---|---|---|\n");
    for (const Row *none = rows; none < rows + WAITS * ORDERS; none += WAITS)
        print_costs(none, none + WAITS * ORDERS, none + 2 * WAITS * ORDERS);
}

void print_readers(double read[READINGS][READERS])
{
    static const char *const of[] = { "every bit map in turn", "bit maps without a pattern", "a tune" };
    printf("\n| records of | C, ns a record | before L8 | proved | before over proved | C over proved |\n");
    printf("|---|---|---|---|---|---|\n");
    for (int k = 0; k < READINGS; k++) {
        double *r = read[k];
        printf("| %s | %.1f | %.1f | %.1f | %.2f | %.2f |\n", of[k], 1e9 * r[0], 1e9 * r[1], 1e9 * r[2], r[1] / r[2],
               r[0] / r[2]);
    }
    printf("\n");
}
