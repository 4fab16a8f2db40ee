/* The job of program `river` in double precision, for comparison of speed. As OTIS does it for steady flow, what rests on the half-step
   numbers alone is worked out once, before the first step. The report solves the rows by the Thomas algorithm, of which a step then has the
   substitution, with one division for each segment; with -DRECIPROCALS it is a product with a reciprocal, and a step has no division. The
   program makes none of river's tests and knows no flow rows. */
#include "listing.h"

#ifdef RECIPROCALS
#define KEPT(pivot) (1 / (pivot))
#define BY_PIVOT(x, kept) ((x) * (kept))
#else
#define KEPT(pivot) (pivot)
#define BY_PIVOT(x, kept) ((x) / (kept))
#endif

typedef double column[SEGMENTS + 8]; /* a cache line more, as ROOM has it */

static column e, g, a, s;             /* the half-step numbers as fractions */
static column self, lateral;          /* (1-T) of C, 2lCL */
static column of_z, of_c, of_cb;      /* (1-V)/(1+V) of Z, b/(1+V) of C and C', 2mCB/(1+V) */
static column of_w, of_h;             /* (1-h)/(1+h) of W, h/(1+h) of C and C' */
static column pivot, lower;           /* H or its reciprocal, and e over the H above */
static column y, channel, storage, sediment, part_z, part_w;

static void prepare(u32 n) {
    const struct set *x = &sets[0];
    double whole = (double)S, p = 0, h_above = 1;
    for (u32 i = 0; i < n; i++) {
        double l = x->l[i] / whole, b = x->b[i] / whole, k = x->k[i] / whole, ks = x->ks[i] / whole, h = x->h[i] / whole;
        double m = x->m[i] / whole, v = b + ks + m;
        e[i] = x->e[i] / whole, g[i] = x->g[i] / whole, a[i] = x->a[i] / whole, s[i] = x->s[i] / whole;
        self[i] = 1 - (e[i] + g[i] + l + a[i] + k + s[i]), lateral[i] = 2 * l * own.cl[i];
        of_z[i] = (1 - v) / (1 + v), of_c[i] = b / (1 + v), of_cb[i] = 2 * m * own.cb[i] / (1 + v);
        of_w[i] = (1 - h) / (1 + h), of_h[i] = h / (1 + h);
        double f = 1 + e[i] + g[i] + l + k + a[i] * (1 + ks + m) / (1 + v) + s[i] / (1 + h), h_own = f - e[i] * p;
        pivot[i] = KEPT(h_own), lower[i] = e[i] / h_above;
        p = g[i] / h_own, h_above = h_own;
    }
}

static void begin_double(u32 n) {
    prepare(n);
    for (u32 i = 0; i < n; i++)
        channel[i] = storage[i] = sediment[i] = own.start[i];
}

static int step(u32 n, u32 old, u32 new, u32 u, u32 next, u32 done, u32 steps) {
    (void)done, (void)steps;
    if (old != new)
        return 1;
    double above = u, y_above = next, below = 0;
    for (u32 i = 0; i < n; i++) {
        double c = channel[i], c_below = i + 1 < n ? channel[i + 1] : 0;
        part_z[i] = of_z[i] * storage[i] + of_c[i] * c + of_cb[i];
        part_w[i] = of_w[i] * sediment[i] + of_h[i] * c;
        double right = self[i] * c + e[i] * above + g[i] * c_below + a[i] * (storage[i] + part_z[i]) + s[i] * (sediment[i] + part_w[i])
            + lateral[i];
        y[i] = y_above = right + lower[i] * y_above;
        above = c;
    }
    for (u32 i = n; i > 0;) {
        i--;
        channel[i] = below = BY_PIVOT(y[i] + g[i] * below, pivot[i]);
        storage[i] = part_z[i] + of_c[i] * below;
        sediment[i] = part_w[i] + of_h[i] * below;
    }
    return 0;
}

static u64 figure(u32 list, u32 at) {
    double x = list == 0 ? channel[at] : list == 1 ? storage[at] : own.kd[at] * sediment[at];
    return (u64)(x + 0.5);
}

int main(void) {
    static const struct solver double_precision = {begin_double, step, figure};
    return listing(&double_precision);
}
