/*
 * Measures the stack that each call takes, arguments and return address included: reads a sheet on standard input, makes the calls of its
 * river on a painted stack, and prints for each call how far down the paint was touched.
 */
#define _GNU_SOURCE
#include <stdint.h>
#include <stdio.h>
#include <string.h>
#include <ucontext.h>

#include "yumbaqel.h"

#define ROOM (1 << 18)
#define MOST_AHEAD 100             /* steps of a forecast: no frame grows with them */

static unsigned char stack[ROOM] __attribute__((aligned(64)));
static ucontext_t here, there;
static void (*call)(void);
static uintptr_t top;

static uint8_t sheet[YUMBAQEL_LONGEST_SHEET + 1];
static size_t length;
static struct yumbaqel_reach reaches[YUMBAQEL_MOST_REACHES];
static uint32_t words[YUMBAQEL_WORDS(YUMBAQEL_MOST_SEGMENTS)];
static uint64_t wide_words[YUMBAQEL_WIDE_WORDS(YUMBAQEL_MOST_SEGMENTS)];
static uint32_t set_words[YUMBAQEL_SET_WORDS(YUMBAQEL_MOST_SEGMENTS)];
static uint32_t row_words[YUMBAQEL_ROW_WORDS(YUMBAQEL_MOST_ROWS)];
static uint32_t copy_words[YUMBAQEL_COPY_WORDS(YUMBAQEL_MOST_SEGMENTS)], side_words[YUMBAQEL_SIDES_WORDS(YUMBAQEL_MOST_SEGMENTS)];
static uint64_t copy_wide_words[YUMBAQEL_WIDE_WORDS(YUMBAQEL_MOST_SEGMENTS)];
static struct yumbaqel_river river, copy;
static uint32_t shared_words[YUMBAQEL_SHARED_WORDS];
static uint64_t shared_wide_words[YUMBAQEL_WIDE_WORDS(YUMBAQEL_MOST_SEGMENTS)];
static uint32_t pool_river_words[YUMBAQEL_LOADING_WORDS(YUMBAQEL_MOST_SEGMENTS)];
static uint32_t pool_highest_words[YUMBAQEL_BLOCKS];
static uint32_t pool_set_words[YUMBAQEL_SET_WORDS(YUMBAQEL_MOST_SEGMENTS)];
static struct yumbaqel_shared shared;
static struct yumbaqel_river pool_river;
static uint32_t number, limit, horizon;
static struct yumbaqel_refusal told;
static struct yumbaqel_figures figures;
static uint32_t u;
static uint64_t off;

static void load(void)
{
    told = yumbaqel_river_load(&river, sheet, length, reaches, YUMBAQEL_MOST_REACHES);
}

static void sets(void)
{
    told = yumbaqel_river_sets(&river, reaches, YUMBAQEL_MOST_REACHES);
}

static void start(void)
{
    told = yumbaqel_river_start(&river, u);
}

static void step(void)
{
    told = yumbaqel_river_step(&river, u);
}

static void report(void)
{
    told = yumbaqel_river_report(&river, river.loaded.segments, &figures);
}

static void search(void)
{
    told = yumbaqel_river_search(&river, limit, &u);
}

static void forecast(void)
{
    told = yumbaqel_river_forecast(&copy, &river, yumbaqel_river_gauge(&river, 0), limit, horizon, &u);
}

static void upstream(void)
{
    told = yumbaqel_river_upstream(&river, river.done, &u);
}

static void rows(void)
{
    told = yumbaqel_river_rows(&river);
}

static void gauge(void)
{
    u = yumbaqel_river_gauge(&river, 0);
}

static void flow(void)
{
    u = yumbaqel_flow(sheet, length, 1);
}

static void dt(void)
{
    u = yumbaqel_river_dt(&river);
}

static void dx(void)
{
    u = yumbaqel_river_dx(&river);
}

static void most_off(void)
{
    off = yumbaqel_most_off(river.done);
}

static void most_rivers(void)
{
    u = yumbaqel_most_rivers();
}

static void most_blocks(void)
{
    u = yumbaqel_most_blocks();
}

static void most_bands(void)
{
    u = yumbaqel_most_bands();
}

static void most_steps(void)
{
    u = yumbaqel_most_steps();
}

static void most_horizon(void)
{
    u = yumbaqel_most_horizon();
}

static void version(void)
{
    u = yumbaqel_version();
}

static void pool_open(void)
{
    told = yumbaqel_shared_open(&shared, number, &pool_river, sheet, length, reaches, YUMBAQEL_MOST_REACHES, 0);
}

static void pool_start(void)
{
    told = yumbaqel_shared_start(&shared, number, &pool_river, 0);
}

static void pool_step(void)
{
    told = yumbaqel_shared_step(&shared, number, &pool_river, 0);
}

static void pool_report(void)
{
    told = yumbaqel_shared_report(&shared, number, &pool_river, pool_river.loaded.segments, &figures);
}

static void pool_search(void)
{
    told = yumbaqel_shared_search(&shared, number, &pool_river, limit, &u);
}

static void pool_forecast(void)
{
    told = yumbaqel_shared_forecast(&shared, number, &copy, &pool_river, yumbaqel_river_gauge(&pool_river, 0), limit, horizon, &u);
}

static void pool_close(void)
{
    told = yumbaqel_shared_close(&shared, number);
}

static void body(void)
{
    top = (uintptr_t)__builtin_frame_address(0);
    call();
}

/* Prints how many bytes below its caller's frame a call touched. */
static void measure(const char *name, void (*which)(void))
{
    size_t low;
    memset(stack, 0xA5, ROOM);
    call = which;
    getcontext(&there);
    there.uc_stack.ss_sp = stack;
    there.uc_stack.ss_size = ROOM;
    there.uc_link = &here;
    makecontext(&there, body, 0);
    swapcontext(&here, &there);
    for (low = 0; low < ROOM && stack[low] == 0xA5; low++)
        ;
    printf("%s %lu\n", name, (unsigned long)(top - (uintptr_t)(stack + low)));
}

/* Forecasts of a river on this sheet, which may be one that is refused: of the present step, of some ahead, and past M. */
static void measure_forecasts(const char *name, void (*which)(void), struct yumbaqel_river *of)
{
    const uint32_t left = of->loaded.steps - of->done, horizons[] = {0, left < MOST_AHEAD ? left : MOST_AHEAD, left + 1};
    size_t i;
    yumbaqel_river_keep(of, sheet, length);
    yumbaqel_river_lend_copy(&copy, of, YUMBAQEL_MOST_SEGMENTS, copy_words, copy_wide_words);
    yumbaqel_river_lend_sides(&copy, YUMBAQEL_MOST_SEGMENTS, side_words);
    limit = YUMBAQEL_HIGHEST;
    for (i = 0; i < sizeof horizons / sizeof *horizons; i++) {
        horizon = horizons[i];
        measure(name, which);
    }
}

/* Rivers of the same sheet in a pool: as many as have room, the first one closed again, and one more, which moves the others. */
static void measure_pool(void)
{
    yumbaqel_shared_lend(&shared, shared_words, shared_wide_words);
    yumbaqel_shared_lend_river(&shared, &pool_river, YUMBAQEL_MOST_SEGMENTS, pool_river_words, pool_highest_words);
    yumbaqel_river_lend_set(&pool_river, YUMBAQEL_MOST_SEGMENTS, pool_set_words);
    for (number = 1; number < YUMBAQEL_MOST_RIVERS; number++)
        measure("pool_open", pool_open);
    number = 1;
    if (shared.table.slots[0].opened == 0) {
        measure_forecasts("pool_forecast", pool_forecast, &pool_river);
        return;
    }
    yumbaqel_shared_follow(&shared, number, &pool_river);
    measure("pool_start", pool_start);
    for (u = 0; u < 2; u++) {
        told = yumbaqel_river_sets(&pool_river, reaches, YUMBAQEL_MOST_REACHES);
        measure("pool_step", pool_step);
    }
    measure("pool_report", pool_report);
    for (limit = 0; limit <= YUMBAQEL_HIGHEST; limit += YUMBAQEL_HIGHEST)
        measure("pool_search", pool_search);
    measure_forecasts("pool_forecast", pool_forecast, &pool_river);
    measure("pool_close", pool_close);
    number = YUMBAQEL_MOST_RIVERS;
    measure("pool_open", pool_open);
}

int main(void)
{
    length = fread(sheet, 1, sizeof sheet, stdin);
    yumbaqel_river_lend(&river, YUMBAQEL_MOST_SEGMENTS, words, wide_words);
    yumbaqel_river_lend_set(&river, YUMBAQEL_MOST_SEGMENTS, set_words);
    yumbaqel_river_lend_rows(&river, YUMBAQEL_MOST_ROWS, row_words);
    printf("stated %d\n", YUMBAQEL_STACK);
    measure_pool();
    measure("load", load);
    if (told.number != YUMBAQEL_ACCEPTED) {
        measure_forecasts("forecast", forecast, &river);
        return 0;
    }
    measure("rows", rows);
    measure("gauge", gauge);
    measure("flow", flow);
    measure("dt", dt);
    measure("dx", dx);
    measure("most_off", most_off);
    measure("most_rivers", most_rivers);
    measure("most_blocks", most_blocks);
    measure("most_bands", most_bands);
    measure("most_steps", most_steps);
    measure("most_horizon", most_horizon);
    measure("version", version);
    measure("upstream", upstream);
    measure("start", start);
    sets();
    measure("step", step);
    sets();
    measure("step", step);
    measure("report", report);
    for (limit = 0; limit <= YUMBAQEL_HIGHEST; limit += YUMBAQEL_HIGHEST)
        measure("search", search);
    measure_forecasts("forecast", forecast, &river);
    return 0;
}
