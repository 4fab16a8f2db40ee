/* The job of program `river` written in C, for comparison of speed. It reads a sheet that river accepts and prints its listing; of a
   sheet that river refuses it knows nothing. */
#include "listing.h"

static int step(u32 n, u32 old, u32 new, u32 u, u32 next, u32 done, u32 steps) {
    u32 found = step_test(&sets[old], &sets[new], &own, n, u, next, done, steps);
    if (found == 0)
        sweep(&sets[old], &sets[new], &own, n, u, next);
    return (int)found;
}

static u64 figure(u32 list, u32 at) {
    return list == 0 ? own.channel[at] : list == 1 ? own.storage[at] : (u64)own.kd[at] * own.sediment[at];
}

int main(void) {
    static const struct solver whole_numbers = {begin, step, figure};
    return listing(&whole_numbers);
}
