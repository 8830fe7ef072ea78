/* Open and the calls of a voice but the block, in plain C. */
#include "plain.h"
#include <string.h>

/* p / q to the nearest, a half upward. */
static int64_t nearest(int64_t p, int64_t q)
{
    int64_t u = 2 * p + q, m = 2 * q, t = u / m;
    return t - (u % m < 0);
}

Filter filter_at_rest(uint32_t order, uint32_t length, uint32_t delay)
{
    Filter f = { 0, 0, 0, 0, 0, 0, order, length, delay };
    int64_t d = delay;
    if (order == 1) {
        f.a1 = nearest(65536 * (4096 - d), 4096 + d);
    } else if (order == 2) {
        f.a1 = nearest(65536 * -2 * (d - 8192), d + 4096);
        f.a2 = nearest(65536 * (d - 4096) * (d - 8192), (d + 4096) * (d + 8192));
    } else {
        int64_t p = (d + 4096) * (d + 8192), q = (d - 8192) * (d - 12288);
        f.a1 = nearest(65536 * -3 * (d - 12288), d + 4096);
        f.a2 = nearest(65536 * 3 * q, p);
        f.a3 = nearest(-65536 * (d - 4096) * q, p * (d + 12288));
    }
    return f;
}

/* What a tuning is refused by: 1, 2, 3, else 0. */
static uint32_t untuned(uint32_t order, uint32_t length, uint32_t delay)
{
    if (outside(order, 1, 3))
        return 1;
    if (outside(length, 1, 2048))
        return 2;
    return outside(delay, 4096 * order - 2047, 4096 * order + 2048) ? 3 : 0;
}

uint32_t open_voice(Voice *v, uint32_t order, uint32_t length, uint32_t delay, uint32_t loss, uint32_t advance)
{
    uint32_t code = untuned(order, length, delay);
    if (code == 0)
        code = loss > 65535 ? 4 : advance > 64 ? 5 : 0;
    memset(v, 0, sizeof *v);
    v->loss = code ? 0 : loss;
    v->advance = code ? 0 : advance;
    v->filter = code ? filter_at_rest(1, 1, 4096) : filter_at_rest(order, length, delay);
    return code;
}

uint32_t set_loss(Voice *v, uint32_t loss)
{
    if (loss > 65535)
        return 4;
    v->loss = loss;
    return 0;
}

uint32_t pluck(Voice *v, uint32_t amplitude, uint32_t count, uint32_t seed)
{
    if (amplitude > 255)
        return 7;
    if (outside(count, 1, 2048))
        return 8;
    v->amplitude = amplitude;
    v->left = count;
    v->noise = seed;
    return 0;
}

uint32_t change(Voice *v, uint32_t order, uint32_t length, uint32_t delay, int kind)
{
    uint32_t code = untuned(order, length, delay);
    if (code)
        return code;
    if (v->waits)
        return 6;
    Filter f = filter_at_rest(order, length, delay);
    if (kind == INSTANT) {
        for (uint32_t k = v->advance; k > 0; k--) {
            int64_t u = f.a1 * f.v1 + (f.a2 * f.v2 + f.a3 * f.v3);
            int64_t w = v->line[place(v->at, length + k)] - u / 65536;
            f.v3 = order > 2 ? f.v2 : 0;
            f.v2 = order > 1 ? f.v1 : 0;
            f.v1 = w;
        }
        v->filter = f;
    } else if (kind == ANNOUNCED && v->advance == 0) {
        v->filter = f;
    } else {
        v->next = f;
        v->taken = 0;
        v->waits = 1;
        v->asked = kind == ASKED;
    }
    return 0;
}

uint32_t commit(Voice *v)
{
    if (!v->waits || !v->asked)
        return 21;
    if (v->taken < v->advance)
        return 20;
    v->filter = v->next;
    v->waits = 0;
    return 0;
}

uint32_t withdraw(Voice *v)
{
    if (!v->waits || !v->asked)
        return 21;
    v->waits = 0;
    return 0;
}
