/* Times the proved voice against plain C over the same scores and lists, interleaved, in rounds over all rows, and prints
   a table of the best times and of the rounds' ratios. Exit status 0 only where every number and every sample agrees. */
#include "bench.h"
#include <stdio.h>

int main(void)
{
    static Row rows[ROWS];
    static double read[READINGS][READERS];
    double wav[2][2] = { { 0, 0 }, { 0, 0 } }, merge[MERGES] = { 0 }, tube[2][2] = { { 0, 0 }, { 0, 0 } };
    static const char *const calls[STORES] = { "stored", "loaded", "shown on the panel" };
    double keep[STORES][2] = { { 0, 0 } };
    int agree = 1;
    make_rows(rows);
    for (int round = 0; round < ROUNDS; round++) {
        for (int i = 0; i < ROWS; i++)
            rows[i].agree &= time_row(&rows[i]);
        for (int k = 0; k < READINGS; k++)
            agree &= time_readers(k, read[k]);
        agree &= time_recording(0, wav[0]) && time_recording(1, wav[1]);
        for (int k = 0; k < MERGES; k++)
            agree &= time_merge(k, &merge[k]);
        agree &= time_junction(0, tube[0]) && time_junction(1, tube[1]);
        for (int k = 0; k < STORES; k++)
            agree &= time_stored(k, keep[k]);
    }
    for (int i = 0; i < ROWS; i++)
        agree &= rows[i].agree;
    print_rows(rows);
    print_readers(read);
    for (int k = 0; k < 2; k++)
        printf("WAV %s: C %.0f, proved %.0f million samples a second, ratio %.2f\n", k ? "reader" : "writer",
               1 / wav[k][0], 1 / wav[k][1], wav[k][0] / wav[k][1]);
    printf("merge: waits of 1 %.0f, waits of 65535 %.0f, twice the records %.0f nanoseconds a record\n", 1e9 * merge[0],
           1e9 * merge[1], 1e9 * merge[2]);
    for (int k = 0; k < 2; k++)
        printf("junction, %s: C %.1f, proved %.1f ns a sample, ratio %.2f\n", k ? "a move waits" : "nothing waits",
               1e9 * tube[k][0], 1e9 * tube[k][1], tube[k][0] / tube[k][1]);
    for (int k = 0; k < STORES; k++)
        printf("voice %s: C %.0f, proved %.0f ns, ratio %.2f\n", calls[k], 1e9 * keep[k][0], 1e9 * keep[k][1],
               keep[k][0] / keep[k][1]);
    printf(agree ? "every number and every sample agrees\n" : "NOT ALL AGREE\n");
    return agree ? 0 : 1;
}
