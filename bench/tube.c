/* The tube junction in plain C. */
#include "plain.h"

/* p / q to the nearest, a half upward. */
static int64_t nearest(int64_t p, int64_t q)
{
    int64_t n = 2 * p + q, m = 2 * q;
    return n / m - (n % m < 0);
}

static One resting(uint32_t d) { return (One){ nearest(65536 * (4096 - (int64_t)d), 4096 + (int64_t)d), 0 }; }

static void rest(One f[2], uint32_t d)
{
    f[0] = resting(d);
    f[1] = resting(8192 - d);
}

static int64_t clip(int64_t u) { return u > MOST ? MOST : u < -MOST ? -MOST : u; }

/* One sample of a filter of order 1, or of an eliminator, whose output is not used. */
static inline int64_t step(One *f, int64_t x)
{
    int64_t w = x - f->a1 * f->v1 / 65536;
    int64_t y = clip(f->v1 + f->a1 * w / 65536);
    f->v1 = w;
    return y;
}

uint32_t plain_junction_open(Tube *t, uint32_t left, uint32_t right, uint32_t delay, uint32_t advance)
{
    uint32_t code = outside(left, 1, 65535) || outside(right, 1, 65535) ? 25
        : outside(delay, 2049, 6143) ? 3
        : advance > 64 ? 5
        : 0;
    *t = (Tube){ 0 };
    t->r = code ? 0 : nearest(32768 * ((int64_t)left - right), (int64_t)left + right);
    t->advance = code ? 0 : advance;
    rest(t->now, code ? 4096 : delay);
    return code;
}

static void settle(Tube *t)
{
    if (t->taken != t->advance)
        return;
    t->now[0] = t->next[0];
    t->now[1] = t->next[1];
    t->waits = 0;
}

uint32_t plain_junction_move(Tube *t, uint32_t delay)
{
    if (outside(delay, 2049, 6143))
        return 3;
    if (t->waits)
        return 6;
    rest(t->next, delay);
    t->waits = 1;
    t->taken = 0;
    settle(t);
    return 0;
}

uint32_t plain_junction_sample(Tube *t, int32_t a, int32_t b, int32_t *right, int32_t *left)
{
    *right = *left = 0;
    if (a > MOST || a < -MOST || b > MOST || b < -MOST)
        return 10;
    int64_t fa = step(&t->now[0], a), fb = step(&t->now[1], b);
    *right = clip(((32768 + t->r) * t->last[0] - t->r * fb) / 32768);
    *left = clip((t->r * fa + (32768 - t->r) * t->last[1]) / 32768);
    t->last[0] = a;
    t->last[1] = b;
    if (t->waits) {
        step(&t->next[0], a);
        step(&t->next[1], b);
        t->taken++;
        settle(t);
    }
    return 0;
}
