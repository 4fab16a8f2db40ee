/* The time of each call of the library on a river: a sheet on standard input, the best time of each call in ns on standard output. With
   the word "ahead", the time of as many steps by step calls and inside one forecast, each in ns for a step. */
#define _POSIX_C_SOURCE 199309L
#include <stdio.h>
#include <stdlib.h>
#include <string.h>
#include <time.h>

#include "yumbaqel.h"

/* The entries of a list; with -DAPART a cache line more (docs/C.md, "Lend lists that lie apart"). */
#ifdef APART
#define ROOM (YUMBAQEL_MOST_SEGMENTS + 16)
#else
#define ROOM YUMBAQEL_MOST_SEGMENTS
#endif
#define AHEAD 10000                /* steps */
#define ROUNDS 5                   /* of these, by step calls and by a forecast in turn */

static uint8_t sheet[YUMBAQEL_LONGEST_SHEET];
static size_t length;
static struct yumbaqel_reach reaches[YUMBAQEL_MOST_REACHES];
static uint32_t words[YUMBAQEL_WORDS(ROOM)], copy_words[YUMBAQEL_COPY_WORDS(ROOM)], side_words[YUMBAQEL_SIDES_WORDS(ROOM)];
static uint32_t set_words[YUMBAQEL_SET_WORDS(ROOM)];
static uint64_t wide_words[YUMBAQEL_WIDE_WORDS(ROOM)], copy_wide_words[YUMBAQEL_WIDE_WORDS(ROOM)];
static uint32_t row_words[YUMBAQEL_ROW_WORDS(YUMBAQEL_MOST_ROWS)];
static uint32_t shared_words[YUMBAQEL_SHARED_WORDS], pool_river_words[YUMBAQEL_LOADING_WORDS(ROOM)];
static uint64_t shared_wide_words[YUMBAQEL_WIDE_WORDS(YUMBAQEL_MOST_SEGMENTS)];
static uint32_t pool_set_words[YUMBAQEL_SET_WORDS(ROOM)], pool_highest_words[YUMBAQEL_HIGHEST_WORDS(ROOM)];
static struct yumbaqel_river river, copy, pool_river;
static struct yumbaqel_shared shared;
static struct yumbaqel_refusal told;
static struct yumbaqel_figures figures;
static uint32_t u, segment, limit, above;
static volatile uint32_t found;
static volatile uint64_t off;

static void load(void) { told = yumbaqel_river_load(&river, sheet, length, reaches, YUMBAQEL_MOST_REACHES); }
static void rows(void) { told = yumbaqel_river_rows(&river); }
static void upstream(void) { told = yumbaqel_river_upstream(&river, river.loaded.steps, &u); }
static void start(void) { told = yumbaqel_river_start(&river, u); }
static void report(void) { told = yumbaqel_river_report(&river, river.loaded.segments, &figures); }
static void search(void) { told = yumbaqel_river_search(&river, limit, &segment); }
static void copy_state(void) { told = yumbaqel_river_copy_state(&copy, &river); }
static void gauge(void) { found = yumbaqel_river_gauge(&river, river.loaded.gauges - 1); }
static void flow(void) { found = yumbaqel_flow(sheet, length, 0); }
static void dt(void) { found = yumbaqel_river_dt(&river); }
static void dx(void) { found = yumbaqel_river_dx(&river); }
static void most_off(void) { off = yumbaqel_most_off(river.done); }
static void most_rivers(void) { found = yumbaqel_most_rivers(); }
static void most_blocks(void) { found = yumbaqel_most_blocks(); }
static void most_bands(void) { found = yumbaqel_most_bands(); }
static void most_steps(void) { found = yumbaqel_most_steps(); }
static void most_horizon(void) { found = yumbaqel_most_horizon(); }
static void forecast(void) { told = yumbaqel_river_forecast(&copy, &river, yumbaqel_river_gauge(&river, 0), UINT32_MAX, 0, &above); }
static void version(void) { found = yumbaqel_version(); }

static void step(void)
{
    river.done = 0;                /* so that M is never reached */
    told = yumbaqel_river_step(&river, u);
}

static void pool_start(void) { told = yumbaqel_shared_start(&shared, 1, &pool_river, u); }
static void pool_report(void) { told = yumbaqel_shared_report(&shared, 1, &pool_river, pool_river.loaded.segments, &figures); }
static void pool_search(void) { told = yumbaqel_shared_search(&shared, 1, &pool_river, limit, &segment); }

static void pool_forecast(void)
{
    told = yumbaqel_shared_forecast(&shared, 1, &copy, &pool_river, yumbaqel_river_gauge(&pool_river, 0), UINT32_MAX, 0, &above);
}

static void pool_open(void)
{
    shared.table.slots[0].opened = 0;
    told = yumbaqel_shared_open(&shared, 1, &pool_river, sheet, length, reaches, YUMBAQEL_MOST_REACHES, u);
}

/* The rest of the shared lists is another river's, which is moved to the front. */
static void pool_moving(void)
{
    shared.table.slots[1].opened = 1;
    shared.table.slots[1].first = river.loaded.segments;
    shared.table.slots[1].segments = YUMBAQEL_MOST_SEGMENTS - river.loaded.segments;
    pool_open();
}

static void pool_step(void)
{
    shared.table.slots[0].steps = pool_river.done = 0;
    told = yumbaqel_shared_step(&shared, 1, &pool_river, u);
}

static void pool_close(void)
{
    shared.table.slots[0].opened = 1;
    told = yumbaqel_shared_close(&shared, 1);
}

static double seconds(void)
{
    struct timespec now;
    clock_gettime(CLOCK_MONOTONIC, &now);
    return (double)now.tv_sec + 1e-9 * (double)now.tv_nsec;
}

static void need(const char *what)
{
    if (told.number != YUMBAQEL_ACCEPTED) {
        fprintf(stderr, "calls: %s is refused %u\n", what, (unsigned)told.number);
        exit(1);
    }
}

/* The best of many rounds, each of so many calls that the clock's own time is of no matter; some 0.2 s in all. */
static void print_time(const char *name, void (*call)(void))
{
    double begun = seconds(), best = 1e9, took;
    const double end = begun + 0.2;
    long calls, i;
    call();
    calls = 1 + (long)(2e-5 / (seconds() - begun));
    while (seconds() < end) {
        begun = seconds();
        for (i = 0; i < calls; i++)
            call();
        took = (seconds() - begun) / (double)calls;
        best = took < best ? took : best;
    }
    need(name);
    printf("%s %.1f\n", name, 1e9 * best);
}

/* Two searches: none of the river is above, and its last segment alone is, before which all highest figures and fifteen segments come. */
static void print_searches(const char *none, const char *last, void (*call)(void), uint32_t *channel, uint32_t *highest, uint32_t n)
{
    limit = YUMBAQEL_HIGHEST;
    print_time(none, call);
    channel[n - 1] = highest[(n - 1) / 16] = limit--;
    print_time(last, call);
    if (segment != n) {
        fprintf(stderr, "calls: %s finds segment %u\n", last, (unsigned)segment);
        exit(1);
    }
}

/* The same steps by step calls and inside a forecast that finds nothing, from the start of a river without flow rows. What they leave must
   be the same. */
static void print_ahead(void)
{
    static uint32_t upstream_at[AHEAD + 1];
    double begun, took, by_calls = 1e9, inside = 1e9;
    uint32_t j, n;
    int round;
    load();
    need("the sheet");
    rows();
    yumbaqel_river_lend_copy(&copy, &river, ROOM, copy_words, copy_wide_words);
    yumbaqel_river_lend_sides(&copy, ROOM, side_words);
    for (j = 0; j <= AHEAD; j++) {
        told = yumbaqel_river_upstream(&river, j, &upstream_at[j]);
        need("U");
    }
    n = river.loaded.segments;
    for (round = 0; round < ROUNDS; round++) {
        u = upstream_at[0];
        start();
        begun = seconds();
        told = yumbaqel_river_forecast(&copy, &river, yumbaqel_river_gauge(&river, 0), UINT32_MAX, AHEAD, &above);
        took = seconds() - begun;
        inside = took < inside ? took : inside;
        need("the forecast");
        begun = seconds();
        for (j = 1; j <= AHEAD; j++)
            told = yumbaqel_river_step(&river, upstream_at[j]);
        took = seconds() - begun;
        by_calls = took < by_calls ? took : by_calls;
        need("the last step");
        if (above != 0 || copy.done != AHEAD || river.done != AHEAD
            || memcmp(copy.channel.at, river.channel.at, n * sizeof *copy.channel.at) != 0
            || memcmp(copy.storage.at, river.storage.at, n * sizeof *copy.storage.at) != 0
            || memcmp(copy.sediment.at, river.sediment.at, n * sizeof *copy.sediment.at) != 0) {
            fprintf(stderr, "calls: the forecast does not leave what the steps leave\n");
            exit(1);
        }
    }
    printf("step_calls %.1f\nforecast_steps %.1f\n", 1e9 * by_calls / AHEAD, 1e9 * inside / AHEAD);
}

int main(int count, char **arguments)
{
    length = fread(sheet, 1, sizeof sheet, stdin);
    yumbaqel_river_lend(&river, ROOM, words, wide_words);
    yumbaqel_river_lend_set(&river, ROOM, set_words);
    yumbaqel_river_lend_rows(&river, YUMBAQEL_MOST_ROWS, row_words);
    if (count == 2 && strcmp(arguments[1], "ahead") == 0) {
        print_ahead();
        return 0;
    }
    print_time("load", load);
    print_time("rows", rows);
    print_time("upstream", upstream);
    print_time("start", start);
    told = yumbaqel_river_sets(&river, reaches, YUMBAQEL_MOST_REACHES);     /* a flow row that begins to hold at step 1 */
    print_time("step", step);
    print_time("report", report);
    yumbaqel_river_lend_copy(&copy, &river, ROOM, copy_words, copy_wide_words);
    yumbaqel_river_lend_sides(&copy, ROOM, side_words);
    print_time("copy_state", copy_state);
    print_time("forecast", forecast);
    print_searches("search", "search_last", search, river.channel.at, river.highest.at, river.loaded.segments);
    print_time("gauge", gauge);
    print_time("flow", flow);
    print_time("dt", dt);
    print_time("dx", dx);
    print_time("most_off", most_off);
    print_time("most_rivers", most_rivers);
    print_time("most_blocks", most_blocks);
    print_time("most_bands", most_bands);
    print_time("most_steps", most_steps);
    print_time("most_horizon", most_horizon);
    print_time("version", version);
    yumbaqel_shared_lend(&shared, shared_words, shared_wide_words);
    yumbaqel_shared_lend_river(&shared, &pool_river, ROOM, pool_river_words, pool_highest_words);
    yumbaqel_river_lend_set(&pool_river, ROOM, pool_set_words);
    print_time("pool_open", pool_open);
    print_time("pool_moving", pool_moving);
    print_time("pool_start", pool_start);
    told = yumbaqel_river_sets(&pool_river, reaches, YUMBAQEL_MOST_REACHES);
    print_time("pool_step", pool_step);
    print_time("pool_report", pool_report);
    print_time("pool_forecast", pool_forecast);
    print_searches("pool_search", "pool_search_last", pool_search, shared.channel.at + shared.table.slots[0].first,
                   pool_river.highest.at, pool_river.loaded.segments);
    print_time("pool_close", pool_close);
    return 0;
}
