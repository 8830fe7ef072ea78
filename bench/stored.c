/* A stored voice in plain C: document 02, L10. The parts are written and read one after the other; a part that is
   absent leaves the number of Open's refusal voice. */
#include "plain.h"
#include <string.h>

enum { TUNING = 1, LOSS = 2, ADVANCE = 4, LAST = 8, STATE = 16, CHANGE = 32, PLUCK = 64, SAMPLES = 128 };

static uint8_t *put(uint8_t *to, uint32_t n)
{
    to[0] = n;
    to[1] = n >> 8;
    to[2] = n >> 16;
    to[3] = n >> 24;
    return to + 4;
}

static uint8_t *put_tuning(uint8_t *to, const Filter *f) { return put(put(put(to, f->order), f->length), f->delay); }

static uint8_t *put_state(uint8_t *to, const Filter *f)
{
    return put(put(put(to, (uint32_t)f->v1), (uint32_t)f->v2), (uint32_t)f->v3);
}

static int sounds(const int32_t *line)
{
    uint32_t any = 0;
    for (int i = 0; i < LINE; i++)
        any |= line[i];
    return any != 0;
}

/* A stretch of the line, the oldest sample of which stands at its start. */
static uint8_t *put_line(uint8_t *restrict to, const int32_t *restrict line, uint32_t n)
{
    for (uint32_t i = 0; i < n; i++)
        put(to + 4 * i, (uint32_t)line[i]);
    return to + 4 * n;
}

uint32_t plain_store(const Voice *v, uint8_t *bytes, size_t room, size_t *length)
{
    const Filter *f = &v->filter;
    uint32_t map = 0;
    size_t size = 1;
    if (f->order != 1 || f->length != 1 || f->delay != 4096)
        map |= TUNING, size += 12;
    if (v->loss)
        map |= LOSS, size += 4;
    if (v->advance)
        map |= ADVANCE, size += 4;
    if (v->last)
        map |= LAST, size += 4;
    if (f->v1 || f->v2 || f->v3)
        map |= STATE, size += 12;
    if (v->waits)
        map |= CHANGE, size += 32;
    if (v->left)
        map |= PLUCK, size += 12;
    if (sounds(v->line))
        map |= SAMPLES, size += 4 * LINE;
    *length = 0;
    if (room < size)
        return 18;
    *length = size;
    *bytes++ = map;
    if (map & TUNING)
        bytes = put_tuning(bytes, f);
    if (map & LOSS)
        bytes = put(bytes, v->loss);
    if (map & ADVANCE)
        bytes = put(bytes, v->advance);
    if (map & LAST)
        bytes = put(bytes, (uint32_t)v->last);
    if (map & STATE)
        bytes = put_state(bytes, f);
    if (map & CHANGE) {
        bytes = put_tuning(put(bytes, v->asked ? 2 : 1), &v->next);
        bytes = put_state(put(bytes, v->taken < v->advance ? v->taken : v->advance), &v->next);
    }
    if (map & PLUCK)
        bytes = put(put(put(bytes, v->amplitude), v->left), v->noise);
    if (map & SAMPLES)
        put_line(put_line(bytes, v->line + v->at, LINE - v->at), v->line, v->at);
    return 0;
}

/* The numbers of a form, without those of the line. */
typedef struct {
    uint32_t order, length, delay, loss, advance, last, state[3], kind, to[3], taken, next[3], amplitude, left, noise;
    const uint8_t *line;
} Form;

static uint32_t get(const uint8_t *from) { return from[0] | from[1] << 8 | from[2] << 16 | (uint32_t)from[3] << 24; }

static int loud(uint32_t n, uint32_t most) { return n > most && n < -most; }

static int bad_filter(uint32_t order, uint32_t length, uint32_t delay, const uint32_t v[3])
{
    if (outside(order, 1, 3) || outside(length, 1, 2048) || outside(delay, 4096 * order - 2047, 4096 * order + 2048))
        return 1;
    for (uint32_t k = 0; k < 3; k++)
        if (loud(v[k], k < order ? 2 * MOST : 0))
            return 1;
    return 0;
}

static int bad_change(const Form *f)
{
    if (f->kind == 0)
        return (f->to[0] | f->to[1] | f->to[2] | f->taken | f->next[0] | f->next[1] | f->next[2]) != 0;
    return f->kind > 2 || f->taken > f->advance || (f->kind == 1 && f->taken == f->advance) ||
           bad_filter(f->to[0], f->to[1], f->to[2], f->next);
}

static int bad_line(const uint8_t *line)
{
    int bad = 0;
    for (int i = 0; line && i < LINE; i++)
        bad |= get(line + 4 * i) + MOST > 2u * MOST;
    return bad;
}

static uint32_t read_form(const uint8_t *s, size_t n, Form *f)
{
    static const size_t sizes[8] = { 12, 4, 4, 4, 12, 32, 12, 4 * LINE };
    size_t size = 1;
    for (int k = 0; k < 8; k++)
        size += n && s[0] >> k & 1 ? sizes[k] : 0;
    if (n != size || n == 0)
        return 22;
    uint32_t map = *s++, *to = &f->order;
    *f = (Form){ .order = 1, .length = 1, .delay = 4096 };
    for (int k = 0; k < 7; to += sizes[k++] / 4)
        if (map >> k & 1)
            for (size_t i = 0; i < sizes[k] / 4; i++, s += 4)
                to[i] = get(s);
    f->line = map & SAMPLES ? s : NULL;
    int bad = bad_filter(f->order, f->length, f->delay, f->state) || f->loss > 65535 || f->advance > 64 ||
              loud(f->last, MOST) || bad_change(f) || f->amplitude > 255 || f->left > 2048 ||
              (f->left == 0 && (f->amplitude | f->noise)) || bad_line(f->line);
    return bad ? 23 : 0;
}

static void make_filter(Filter *f, uint32_t order, uint32_t length, uint32_t delay, const uint32_t v[3])
{
    *f = filter_at_rest(order, length, delay);
    f->v1 = (int32_t)v[0];
    f->v2 = (int32_t)v[1];
    f->v3 = (int32_t)v[2];
}

uint32_t plain_load(Voice *v, const uint8_t *bytes, size_t n)
{
    Form f;
    uint32_t number = read_form(bytes, n, &f);
    if (number) {
        open_voice(v, 0, 0, 0, 0, 0);
        return number;
    }
    memset(v, 0, offsetof(Voice, line));
    make_filter(&v->filter, f.order, f.length, f.delay, f.state);
    v->loss = f.loss;
    v->advance = f.advance;
    v->last = (int32_t)f.last;
    if (f.kind)
        make_filter(&v->next, f.to[0], f.to[1], f.to[2], f.next);
    v->waits = f.kind != 0;
    v->asked = f.kind == 2;
    v->taken = f.taken;
    v->amplitude = f.amplitude;
    v->left = f.left;
    v->noise = f.noise;
    for (int i = 0; i < LINE; i++)
        v->line[i] = f.line ? (int32_t)get(f.line + 4 * i) : 0;
    return 0;
}

uint32_t plain_panel(const uint8_t *bytes, size_t n, uint32_t *length, uint32_t *delay, uint32_t *loss)
{
    Form f;
    uint32_t number = read_form(bytes, n, &f);
    *length = number ? 1 : f.length;
    *delay = number ? 4096 : f.delay;
    *loss = number ? 0 : f.loss;
    return number;
}
