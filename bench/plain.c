/* The samples of the voice in plain C, in the fastest forms found: all that a sample takes again is carried from the one
   before it, the state is in locals, there is a loop for each order and for each part that can be absent, and stretches
   of samples in which neither the ring ends nor a pluck nor a waiting change, so that the loops have no test but their
   count, the clips and, in some forms, a sign. */
#include "plain.h"

#define INLINE static inline __attribute__((always_inline))

/* A sum is cut toward zero in one of these forms: a division, of which a compiler makes a conditional move; the bits of
   its sign, which are 65,535 or 131,071 below 0, and a shift; the bits of the sign of a number on the same side of 0; a
   branch by its sign, or by the signs of its factors; a choice between two differences, of which one alone waits for
   the newest product, by the sum's sign or by that of a factor, or a branch between them. */
typedef enum { DIVISION, BITS, BITS_BEFORE, BRANCH, BRANCH_BEFORE, CHOICE, CHOICE_BEFORE, SPLIT } Form;

/* The forms of w, of the output, of the loop and of an eliminator's w. */
typedef struct {
    Form w, y, s, e;
} Forms;

/* The fastest found by each compiler, with nothing waiting and with a change that waits. */
INLINE Forms forms_of(uint32_t order, int waits)
{
#ifdef __clang__
    static const Forms alone[] = { { SPLIT, BRANCH, DIVISION, 0 },
                                   { SPLIT, BRANCH, BITS_BEFORE, 0 },
                                   { BRANCH, BRANCH, BITS_BEFORE, 0 } };
    static const Forms beside[] = { { BRANCH_BEFORE, 0, DIVISION, BRANCH },
                                    { BRANCH, BRANCH, BITS_BEFORE, BRANCH },
                                    { BRANCH, BRANCH, BITS_BEFORE, BRANCH } };
#else
    static const Forms alone[] = { { CHOICE_BEFORE, BITS, BITS, 0 },
                                   { CHOICE, DIVISION, DIVISION, 0 },
                                   { DIVISION, DIVISION, DIVISION, 0 } };
    static const Forms beside[] = { { BRANCH_BEFORE, 0, BRANCH, CHOICE },
                                    { CHOICE, DIVISION, DIVISION, CHOICE },
                                    { DIVISION, DIVISION, DIVISION, BITS } };
#endif
    return (waits ? beside : alone)[order - 1];
}

/* One test that seldom holds, which was faster than two conditional moves. */
INLINE int64_t clip(int64_t u)
{
    if (__builtin_expect((uint64_t)(u + MOST) > 2u * MOST, 0))
        return u > 0 ? MOST : -MOST;
    return u;
}

/* f less (q + m) / 65,536, cut. */
INLINE int64_t less(Form form, int64_t f, int64_t q, int64_t m)
{
    if (form == DIVISION)
        return f - (m + q) / 65536;
    int64_t u = q + m, p = 65536 * f - q;
    if (form == BITS)
        return f - ((u + (int64_t)((uint64_t)u >> 48)) >> 16);
    if (form == CHOICE)
        return (u < 0 ? p - m : p + 65535 - m) >> 16;
    if (form == SPLIT) {
        if (u < 0)
            return (p - m) >> 16;
        return -((m - p) >> 16);
    }
    if (u < 0)
        return f + (-u >> 16);
    return f - (u >> 16);
}

/* v and u / 65,536, cut. */
INLINE int64_t more(Form form, int64_t v, int64_t u)
{
    if (form == DIVISION)
        return v + u / 65536;
    if (form == BITS)
        return v + ((u + (int64_t)((uint64_t)u >> 48)) >> 16);
    if (u < 0)
        return v - (-u >> 16);
    return v + (u >> 16);
}

/* a * w / 65,536, cut by the signs of the two factors, and v more that. */
INLINE int64_t quotient(int64_t a, int64_t w, int64_t v, int64_t *sum)
{
    if ((w ^ a) < 0) {
        int64_t t = (-a * w) >> 16;
        *sum = v - t;
        return -t;
    }
    int64_t t = (a * w) >> 16;
    *sum = v + t;
    return t;
}

/* g * t / 131,072, cut: what the loop brings back. */
INLINE int64_t back(Form form, int64_t g, int64_t t)
{
    const int64_t z = g * t;
    if (form == DIVISION)
        return z / 131072;
    if (form != BRANCH)
        return (z + (int64_t)((uint64_t)(form == BITS ? z : t) >> 47)) >> 17;
    if (t < 0)
        return -((g * -t) >> 17);
    return z >> 17;
}

static inline uint32_t least(uint32_t a, uint32_t b) { return a < b ? a : b; }

/* One stretch. order, coming, which is the order that waits or 0, plucks and feeds, which is whether there is an input,
   are constants where it is called, and each call becomes its own loop. */
INLINE void
stretch(Voice *v, const int32_t *restrict in, int32_t *restrict out, uint32_t n, uint32_t order, uint32_t coming,
        int plucks, int feeds)
{
    const int64_t a1 = v->filter.a1, a2 = v->filter.a2, a3 = v->filter.a3;
    const int64_t b1 = v->next.a1, b2 = v->next.a2, b3 = v->next.a3;
    const int64_t loss = v->loss, amplitude = v->amplitude;
    int64_t v1 = v->filter.v1, v2 = v->filter.v2, v3 = v->filter.v3, last = v->last;
    int64_t e1 = v->next.v1, e2 = v->next.v2, e3 = v->next.v3;
    uint32_t noise = v->noise;
    int32_t *to = v->line + v->at;
    const int32_t *from = v->line + place(v->at, v->filter.length);
    const int32_t *ahead = v->line + (coming ? place(v->at, v->next.length) : 0);
    const Forms form = forms_of(order, coming != 0);
    const Form e_form = coming ? forms_of(coming, 1).e : DIVISION;
    /* The products that the next samples take again; in order 1 the quotient where that is made before w. */
    const int made = order == 1 && form.w == BRANCH_BEFORE;
    int64_t m = made ? a1 * v1 / 65536 : a1 * v1, m2 = a1 * v2, t = a2 * v1, u = a3 * v1, u2 = a3 * v2;
    int64_t q = order == 2 ? a2 * v2 : a2 * v2 + a3 * v3;
    /* What is added where v1 is below 0, and where it is not, so that a difference is cut by the sign of a1 * v1. */
    const int64_t below = a1 < 0 ? 65535 : 0, above = 65535 - below;
    for (uint32_t i = 0; i < n; i++) {
        int64_t w, y, s;
        if (order == 1 && form.w == CHOICE_BEFORE) {
            w = (65536 * (int64_t)from[i] + (v1 < 0 ? below : above) - m) >> 16;
            m = a1 * w;
            y = clip(more(form.y, v1, m));
        } else if (made) {
            w = from[i] - m;
            m = quotient(a1, w, v1, &y);
            y = clip(y);
        } else if (order == 1) {
            w = less(form.w, from[i], 0, m);
            m = a1 * w;
            y = clip(more(form.y, v1, m));
        } else if (order == 2) {
            w = less(form.w, from[i], q, m);
            q = t;
            t = a2 * w;
            y = clip(more(form.y, v2, t + m));
            m = a1 * w;
            v2 = v1;
        } else {
            w = less(form.w, from[i], q, m);
            q = t + u2;
            u2 = u;
            u = a3 * w;
            y = clip(more(form.y, v3, u + (t + m2)));
            m2 = m;
            m = a1 * w;
            t = a2 * w;
            v3 = v2;
            v2 = v1;
        }
        v1 = w;
        if (coming) {
            const int64_t older = coming == 1 ? 0 : coming == 2 ? b2 * e2 : b2 * e2 + b3 * e3;
            const int64_t e = less(e_form, ahead[i], older, b1 * e1);
            e3 = e2;
            e2 = e1;
            e1 = e;
        }
        s = back(form.s, loss, y + last);
        if (feeds)
            s += in[i];
        if (plucks) {
            noise = 1664525 * noise + 1013904223;
            s += amplitude * ((int64_t)(noise >> 16) - 32768);
        }
        last = y;
        to[i] = feeds || plucks ? clip(s) : s;
        out[i] = y;
    }
    v->filter.v1 = v1;
    v->filter.v2 = order > 1 ? v2 : 0;
    v->filter.v3 = order > 2 ? v3 : 0;
    v->last = last;
    if (coming) {
        v->next.v1 = e1;
        v->next.v2 = coming > 1 ? e2 : 0;
        v->next.v3 = coming > 2 ? e3 : 0;
    }
    v->noise = noise;
}

/* The loop for what waits and for whether a pluck sounds, of one order in force. */
INLINE void
stretch_in(Voice *v, const int32_t *in, int32_t *out, uint32_t n, uint32_t order, int feeds)
{
    switch ((v->waits ? v->next.order : 0) * 2 + (v->left != 0)) {
    case 0: stretch(v, in, out, n, order, 0, 0, feeds); break;
    case 1: stretch(v, in, out, n, order, 0, 1, feeds); break;
    case 2: stretch(v, in, out, n, order, 1, 0, feeds); break;
    case 3: stretch(v, in, out, n, order, 1, 1, feeds); break;
    case 4: stretch(v, in, out, n, order, 2, 0, feeds); break;
    case 5: stretch(v, in, out, n, order, 2, 1, feeds); break;
    case 6: stretch(v, in, out, n, order, 3, 0, feeds); break;
    case 7: stretch(v, in, out, n, order, 3, 1, feeds); break;
    }
}

/* The loop for the order in force and for what there is beside the filter. */
INLINE void stretch_of(Voice *v, const int32_t *in, int32_t *out, uint32_t n, int feeds)
{
    switch (v->filter.order) {
    case 1: stretch_in(v, in, out, n, 1, feeds); break;
    case 2: stretch_in(v, in, out, n, 2, feeds); break;
    case 3: stretch_in(v, in, out, n, 3, feeds); break;
    }
}

/* An announced change takes effect when it has taken as many samples as the advance; an asked one is counted so far. */
static inline void taken(Voice *v, uint32_t n)
{
    v->taken = least(v->taken + n, v->advance);
    if (!v->asked && v->taken == v->advance) {
        v->filter = v->next;
        v->waits = 0;
    }
}

void render(Voice *v, const int32_t *in, int32_t *out, uint32_t n)
{
    while (n > 0) {
        uint32_t m = least(n, LINE - v->at);
        m = least(m, LINE - place(v->at, v->filter.length));
        if (v->waits)
            m = least(m, LINE - place(v->at, v->next.length));
        if (v->waits && !v->asked)
            m = least(m, v->advance - v->taken);
        if (v->left)
            m = least(m, v->left);
        if (in) {
            stretch_of(v, in, out, m, 1);
            in += m;
        } else {
            stretch_of(v, in, out, m, 0);
        }
        if (v->left)
            v->left -= m;
        if (v->waits)
            taken(v, m);
        v->at = v->at + m == LINE ? 0 : v->at + m;
        out += m;
        n -= m;
    }
}
