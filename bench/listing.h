/* What the programs of the comparison have in common: a sheet that river accepts is read, and the listing of its river printed. */
#include <stdio.h>
#include <string.h>

#include "otis.h"

#define ROWS 256

/* How a program starts its river, makes a step between two of the sets, and says a figure. */
struct solver {
    void (*begin)(u32 n);
    int (*step)(u32 n, u32 old, u32 new, u32 u, u32 next, u32 done, u32 steps); /* 0, or why not */
    u64 (*figure)(u32 list, u32 at);                                            /* channel, storage or Kd x sediment of a segment */
};

static u32 starts[ROWS], concentrations[ROWS];

static u32 upstream(u32 rows, u32 j) {
    u32 found = 0;
    for (u32 i = 0; i < rows && starts[i] <= j; i++)
        found = concentrations[i];
    return found;
}

static char out[65536];
static size_t used;

static void number(u64 x, char end) {
    char digits[20];
    int count = 0;
    do
        digits[count++] = (char)('0' + x % 10);
    while (x /= 10);
    while (count > 0)
        out[used++] = digits[--count];
    out[used++] = end;
}

static void flush(void) {
    fwrite(out, 1, used, stdout);
    used = 0;
}

static void text(const char *t) {
    memcpy(out + used, t, strlen(t));
    used += strlen(t);
}

static int listing(const struct solver *by) {
    size_t got = fread(sheet, 1, sizeof sheet, stdin);
    if (got < 112)
        return 1;
    u32 n = load(&sets[0], &own, 0), steps = field(12), interval = field(16), flow = 0, old = 0;
    size_t rows_at = 28 + 64 * (size_t)field(24), gauges_at;
    u32 rows = field(rows_at), gauges;
    for (u32 i = 0; i < rows; i++) {
        starts[i] = field(rows_at + 4 + 8 * (size_t)i);
        concentrations[i] = field(rows_at + 8 + 8 * (size_t)i);
    }
    gauges_at = rows_at + 4 + 8 * (size_t)rows;
    gauges = field(gauges_at);
    by->begin(n);
    u32 u = upstream(rows, 0);
    text("step segment channel storage sediment\n");
    for (u32 j = 1; j <= steps; j++) {
        u32 next = upstream(rows, j), new = old;
        if (flow_in_force(j) != flow) {
            flow = flow_in_force(j);
            new = 1 - old;
            load(&sets[new], &own, flow);
        }
        if (by->step(n, old, new, u, next, j - 1, steps) != 0)
            return 1;
        u = next;
        old = new;
        if (j % interval == 0)
            for (u32 i = 0; i < gauges; i++) {
                u32 at = field(gauges_at + 4 + 4 * (size_t)i);
                if (sizeof out - used < 128)
                    flush();
                number(j, ' ');
                number(at, ' ');
                for (u32 list = 0; list < 3; list++)
                    number(by->figure(list, at - 1), list == 2 ? '\n' : ' ');
            }
    }
    if (sizeof out - used < 128)
        flush();
    text("done ");
    number(steps, '\n');
    flush();
    return 0;
}
