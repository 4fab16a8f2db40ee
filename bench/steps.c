/* The proved step beside the one in C, called in turn on the same river: a sheet with a flow row on standard input, times on standard
   output; first with one set on both sides, then with the two sets of the step at which the row begins to hold. With -DAPART the lists of
   both have room for a cache line more than the river, so that they do not lie a multiple of 4,096 bytes apart. */
#include <stdio.h>
#include <stdlib.h>
#include <string.h>
#include <time.h>

/* The library does not know whose lists it will be lent, and so the step in C must not either. */
#define LENT_CALL __attribute__((noipa))
#include "otis.h"
#include "yumbaqel.h"

#define ROUNDS 400
#define STEPS 10

static double seconds(void) {
    struct timespec now;
    clock_gettime(CLOCK_MONOTONIC, &now);
    return (double)now.tv_sec + 1e-9 * (double)now.tv_nsec;
}

static uint32_t library_words[YUMBAQEL_WORDS(ROOM)], library_set_words[YUMBAQEL_SET_WORDS(ROOM)];
static uint64_t library_wide_words[YUMBAQEL_WIDE_WORDS(ROOM)];
static struct yumbaqel_reach reaches[YUMBAQEL_MOST_REACHES];
static struct yumbaqel_river river;

static void fail(const char *why) {
    fprintf(stderr, "steps: %s\n", why);
    exit(1);
}

/* Steps of both, with set number 0 on the old side and set number `side` on the new one. */
static void compare(const char *title, int side, u32 n, u32 u) {
    const struct yumbaqel_set *library_old = &river.sets[0], *library_new = &river.sets[side];
    const struct set *old = &sets[0], *new = &sets[side];
    double proved = 1e9, tested = 1e9, untested = 1e9;
    struct yumbaqel_refusal told = yumbaqel_river_start(&river, u);
    u32 done = 0;
    if (told.number != 0)
        fail("the start is refused");
    begin(n);
    for (int round = 0; round < ROUNDS; round++) {
        double begun = seconds();
        for (int j = 0; j < STEPS; j++) {
            yumbaqel_step(&told.number, &told.kind, &told.place, n, YUMBAQEL_SET(library_old), YUMBAQEL_SET(library_new),
                          YUMBAQEL_OTHERS(&river), YUMBAQEL_FIGURES(&river), river.highest.at, river.highest.length,
                          &river.upstream, &river.done,
                          river.p.at, river.p.length, river.y.at, river.y.length, u, 100000);
            if (told.number != 0)
                fail("a step is refused");
        }
        double took = seconds() - begun;
        proved = took < proved ? took : proved;

        begun = seconds();
        for (int j = 0; j < STEPS; j++) {
            if (step_test(old, new, &own, n, u, u, done++, 100000) != 0)
                fail("a step in C is refused");
            sweep(old, new, &own, n, u, u);
        }
        took = seconds() - begun;
        tested = took < tested ? took : tested;

        if (memcmp(own.channel, river.channel.at, n * sizeof(u32)) || memcmp(own.storage, river.storage.at, n * sizeof(u32))
            || memcmp(own.sediment, river.sediment.at, n * sizeof(u32))
            || memcmp(own.highest, river.highest.at, YUMBAQEL_HIGHEST_WORDS(n) * sizeof(u32)))
            fail("the figures differ");
    }
    for (int round = 0; round < ROUNDS; round++) {
        double begun = seconds();
        for (int j = 0; j < STEPS; j++)
            sweep(old, new, &own, n, u, u);
        double took = seconds() - begun;
        untested = took < untested ? took : untested;
    }
    double each = 1e9 / n / STEPS;
    printf("%s\n", title);
    printf("proved step                        %6.1f ns per segment\n", proved * each);
    printf("step in C, tests 13 to 15 and all  %6.1f ns per segment   ratio %.2f\n", tested * each, proved / tested);
    printf("sweep in C without the tests       %6.1f ns per segment   ratio %.2f\n", untested * each, proved / untested);
}

int main(void) {
    size_t got = fread(sheet, 1, sizeof sheet, stdin);
    yumbaqel_river_lend(&river, ROOM, library_words, library_wide_words);
    yumbaqel_river_lend_set(&river, ROOM, library_set_words);
    if (yumbaqel_river_load(&river, sheet, got, reaches, YUMBAQEL_MOST_REACHES).number != 0)
        fail("the sheet is refused");
    if (yumbaqel_river_load_flow(&river, 1, 0, reaches, YUMBAQEL_MOST_REACHES).number != 0)
        fail("the sheet has no flow row");
    u32 n = load(&sets[0], &own, 0);
    load(&sets[1], &own, 1);
    if (memcmp(sets[0].e, sets[1].e, n * sizeof(u32)) == 0)
        fail("the flow row changes nothing");
    compare("one set on both sides", 0, n, 100000000);
    compare("two sets", 1, n, 100000000);
    return 0;
}
