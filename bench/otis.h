/* The documents' loading and step written in C, for comparison of speed: the same arithmetic on lists that are lent, and nothing proved. */
#include <stdint.h>
#include <stddef.h>

typedef uint32_t u32;
typedef uint64_t u64;
typedef unsigned __int128 u128;

#define S ((u64)1 << 30)
#define HIGHEST 1000000000u
#define SEGMENTS 1024

/* The entries of a list. With -DAPART a cache line more, as in program `river`: else lists lie a multiple of 4,096 bytes apart, and drive
   one another out of the cache. */
#ifdef APART
#define ROOM (SEGMENTS + 16)
#else
#define ROOM SEGMENTS
#endif

#define BLOCK 16                   /* segments with one highest channel figure */

/* The half-step numbers of one flow. */
struct set {
    u32 *e, *g, *l, *a, *b, *k, *ks, *h, *m, *s;
};

/* The other lists of a loading, those of the state, the highest figures, and those of the downward pass, as they are lent to a step. */
struct lists {
    u32 *cl, *cb, *kd, *start;
    u32 *channel, *storage, *sediment, *highest;
    u64 *p, *y;
};

static unsigned char sheet[6825];

static u32 field(size_t at) {
    return (u32)sheet[at] | (u32)sheet[at + 1] << 8 | (u32)sheet[at + 2] << 16 | (u32)sheet[at + 3] << 24;
}

/* to the nearest, a half going up */
static inline u64 nearest(u64 n, u64 d) {
    u64 q = n / d;
    return 2 * (n % d) < d ? q : q + 1;
}

static u32 parts(u128 n, u128 d) {
    return (u32)((2 * n * S + d) / (2 * d));
}

enum { LENGTH, DISPERSION, AREA, AREA2, ALPHA, QIN, QOUT, CL, LAMBDA, LAMBDA2, LAMHAT, LAMHAT2, RHO, KD, CB, START };

static u32 reach(u32 number, int name) {
    return field(28 + 64 * (size_t)number + 4 * (size_t)name);
}

/* Where the flow rows begin; a sheet marked OTR1 has none. */
static size_t flow_rows_at(void) {
    size_t rows_at = 28 + 64 * (size_t)field(24), gauges_at = rows_at + 4 + 8 * (size_t)field(rows_at);
    return gauges_at + 4 + 4 * (size_t)field(gauges_at) + 4;
}

static u32 flow_rows(void) {
    return sheet[3] == '2' ? field(flow_rows_at() - 4) : 0;
}

/* the number of the flow in force at step j: the last flow row that starts at or before j, else 0, the flow at the top */
static u32 flow_in_force(u32 j) {
    size_t at = flow_rows_at();
    u32 found = 0;
    for (u32 rows = flow_rows(); found < rows && field(at + 8 * (size_t)found) <= j;)
        found++;
    return found;
}

/* half-step numbers of every segment with this flow, and the other lists of a loading; the segment count */
static u32 load(const struct set *set, const struct lists *to, u32 flow) {
    u64 dt = field(4), dx = field(8), top = flow == 0 ? field(20) : field(flow_rows_at() + 8 * (size_t)flow - 4);
    u32 reaches = field(24), n = 0;
    static u32 own[SEGMENTS];
    for (u32 r = 0; r < reaches; r++)
        for (u32 i = 0; i < reach(r, LENGTH); i++)
            own[n++] = r;
    int64_t gain = 0;
    for (u32 i = 0; i < n; i++) {
        u32 r = own[i], above = own[i == 0 ? 0 : i - 1], below = own[i + 1 == n ? i : i + 1];
        int64_t net = ((int64_t)reach(r, QIN) - (int64_t)reach(r, QOUT)) * (int64_t)dx, twice = 2 * gain + net;
        int64_t down = twice >= 0 ? twice / 200000 : -1 - (-1 - twice) / 200000;
        u64 q = (u64)((int64_t)top + down);
        u64 ad = (u64)reach(r, AREA) * reach(r, DISPERSION);
        u64 ad_above = (u64)reach(above, AREA) * reach(above, DISPERSION);
        u64 ad_below = (u64)reach(below, AREA) * reach(below, DISPERSION);
        u128 whole = (u128)4 * reach(r, AREA) * dx * dx;
        set->e[i] = parts((u128)dt * (q * dx + ad_above + ad), whole);
        set->g[i] = i + 1 == n ? 0 : parts((u128)dt * (ad + ad_below - q * dx), whole);
        set->l[i] = parts((u128)dt * reach(r, QIN), (u128)200000 * reach(r, AREA));
        set->a[i] = parts((u128)dt * reach(r, ALPHA), 2000000000u);
        set->b[i] = parts((u128)dt * reach(r, ALPHA) * reach(r, AREA), (u128)2000000000u * reach(r, AREA2));
        set->k[i] = parts((u128)dt * reach(r, LAMBDA), 2000000000u);
        set->ks[i] = parts((u128)dt * reach(r, LAMBDA2), 2000000000u);
        set->h[i] = parts((u128)dt * reach(r, LAMHAT), 2000000000u);
        set->m[i] = parts((u128)dt * reach(r, LAMHAT2), 2000000000u);
        set->s[i] = parts((u128)dt * reach(r, LAMHAT) * reach(r, RHO) * reach(r, KD), (u128)2000000000000000u);
        to->cl[i] = reach(r, CL);
        to->cb[i] = reach(r, CB);
        to->kd[i] = reach(r, KD);
        to->start[i] = reach(r, START);
        gain += net;
    }
    return n;
}

/* How step_test and sweep are compiled: a program may fit them to its own lists, a library cannot. */
#ifndef LENT_CALL
#define LENT_CALL
#endif

#define LENT_TO_READ(list) const u32 *restrict list = on->list
#define LENT_TO_WRITE(list) u32 *restrict list = on->list
#define OF_NEW_SET(list) const u32 *restrict list = new->list
#define OF_OLD_SET(list) const u32 *restrict list##0 = old->list

/* a segment's T, V and h pass one whole, or its last g is not 0 */
static inline int numbers_fault(u64 t, u64 v, u32 h, u32 g, int last) {
    return t > S || v > S || h > S || (last && g != 0);
}

/* tests 13 to 15 of a step, over lists that have an entry for each of n segments: the number of the refusal, or 0 */
LENT_CALL static u32 step_test(const struct set *old, const struct set *new, const struct lists *on, u32 n, u32 u, u32 next, u32 done,
                               u32 steps) {
    OF_OLD_SET(e); OF_OLD_SET(g); OF_OLD_SET(l); OF_OLD_SET(a); OF_OLD_SET(b); OF_OLD_SET(k); OF_OLD_SET(ks); OF_OLD_SET(h);
    OF_OLD_SET(m); OF_OLD_SET(s);
    OF_NEW_SET(e); OF_NEW_SET(g); OF_NEW_SET(l); OF_NEW_SET(a); OF_NEW_SET(b); OF_NEW_SET(k); OF_NEW_SET(ks); OF_NEW_SET(h);
    OF_NEW_SET(m); OF_NEW_SET(s);
    LENT_TO_READ(cl); LENT_TO_READ(cb); LENT_TO_READ(kd); LENT_TO_READ(start);
    LENT_TO_READ(channel); LENT_TO_READ(storage); LENT_TO_READ(sediment);
    if (n < 1 || n > SEGMENTS)
        return 13;
    for (u32 i = 0; i < n; i++) {
        u64 t0 = (u64)e0[i] + g0[i] + l0[i] + a0[i] + k0[i] + s0[i], v0 = (u64)b0[i] + ks0[i] + m0[i];
        u64 t = (u64)e[i] + g[i] + l[i] + a[i] + k[i] + s[i], v = (u64)b[i] + ks[i] + m[i];
        if (numbers_fault(t0, v0, h0[i], g0[i], i + 1 == n) || numbers_fault(t, v, h[i], g[i], i + 1 == n))
            return 14;
        if (kd[i] > 1000 || cl[i] > HIGHEST || cb[i] > HIGHEST || start[i] > HIGHEST)
            return 14;
        if (channel[i] > HIGHEST || storage[i] > HIGHEST || sediment[i] > HIGHEST)
            return 14;
    }
    if (u > HIGHEST || next > HIGHEST || done > 100000 || steps > 100000)
        return 14;
    return done >= steps ? 15 : 0;
}

/* (S-V)Z + bC + 2mCB, the old side; 2m is the old number plus the new */
static inline u64 storage_right(u32 b0, u32 ks0, u32 m0, u32 m, u32 cb, u32 c, u32 z) {
    return (S - ((u64)b0 + ks0 + m0)) * z + (u64)b0 * c + ((u64)m0 + m) * cb;
}

/* (S-h)W + hC, the old side */
static inline u64 sediment_right(u32 h0, u32 c, u32 w) {
    return (S - h0) * w + (u64)h0 * c;
}

/* the sweep; the upward pass keeps the highest figure of each block */
LENT_CALL static void sweep(const struct set *old, const struct set *new, const struct lists *on, u32 n, u32 u, u32 next) {
    OF_OLD_SET(e); OF_OLD_SET(g); OF_OLD_SET(l); OF_OLD_SET(a); OF_OLD_SET(b); OF_OLD_SET(k); OF_OLD_SET(ks); OF_OLD_SET(h);
    OF_OLD_SET(m); OF_OLD_SET(s);
    OF_NEW_SET(e); OF_NEW_SET(g); OF_NEW_SET(l); OF_NEW_SET(a); OF_NEW_SET(b); OF_NEW_SET(k); OF_NEW_SET(ks); OF_NEW_SET(h);
    OF_NEW_SET(m); OF_NEW_SET(s);
    LENT_TO_READ(cl); LENT_TO_READ(cb);
    LENT_TO_WRITE(channel); LENT_TO_WRITE(storage); LENT_TO_WRITE(sediment); LENT_TO_WRITE(highest);
    u64 *restrict p = on->p, *restrict y = on->y;
    u64 above = u, p_above = 0, y_above = next;
    for (u32 i = 0; i < n; i++) {
        u64 t0 = (u64)e0[i] + g0[i] + l0[i] + a0[i] + k0[i] + s0[i], v = (u64)b[i] + ks[i] + m[i];
        u64 c = channel[i], below = i + 1 < n ? channel[i + 1] : 0;
        u64 f = S + e[i] + g[i] + l[i] + k[i] + nearest((u64)a[i] * (S + ks[i] + m[i]), S + v) + nearest((u64)s[i] * S, S + h[i]);
        u64 right = (S - t0) * c + (u64)e0[i] * above + (u64)g0[i] * below + (u64)a0[i] * storage[i] + (u64)s0[i] * sediment[i]
            + ((u64)l0[i] + l[i]) * cl[i];
        u64 r = right + (u64)a[i] * nearest(storage_right(b0[i], ks0[i], m0[i], m[i], cb[i], channel[i], storage[i]), S + v)
            + (u64)s[i] * nearest(sediment_right(h0[i], channel[i], sediment[i]), S + h[i]);
        u64 pivot = f - nearest((u64)e[i] * p_above, S);
        p_above = p[i] = nearest((u64)g[i] * S, pivot);
        y_above = y[i] = nearest(r + (u64)e[i] * y_above, pivot);
        above = c;
    }
    u64 below = 0, most = 0;
    for (u32 i = n; i > 0;) {
        i--;
        below = y[i] + nearest(p[i] * below, S);
        u64 c = below < HIGHEST ? below : HIGHEST, v = (u64)b[i] + ks[i] + m[i];
        u32 z = (u32)nearest(storage_right(b0[i], ks0[i], m0[i], m[i], cb[i], channel[i], storage[i]) + (u64)b[i] * c, S + v);
        u32 w = (u32)nearest(sediment_right(h0[i], channel[i], sediment[i]) + (u64)h[i] * c, S + h[i]);
        channel[i] = (u32)c;
        storage[i] = z;
        sediment[i] = w;
        most = c > most ? c : most;
        if (i % BLOCK == 0) {
            highest[i / BLOCK] = (u32)most;
            most = 0;
        }
    }
}

/* A river's lists and two sets, in static memory. */
static u32 words[7][ROOM], highest_words[SEGMENTS / BLOCK], set_words[2][10][ROOM];
static u64 wide_words[2][ROOM];

static const struct lists own = {
    words[0], words[1], words[2], words[3], words[4], words[5], words[6], highest_words, wide_words[0], wide_words[1]};

#define SET(of) {of[0], of[1], of[2], of[3], of[4], of[5], of[6], of[7], of[8], of[9]}
static const struct set sets[2] = {SET(set_words[0]), SET(set_words[1])};

static void begin(u32 n) {
    for (u32 i = 0; i < n; i++) {
        u32 so_far = i % BLOCK == 0 ? 0 : own.highest[i / BLOCK];
        own.channel[i] = own.storage[i] = own.sediment[i] = own.start[i];
        own.highest[i / BLOCK] = own.start[i] > so_far ? own.start[i] : so_far;
    }
}
