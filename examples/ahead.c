/*
 * A look ahead: in how many steps will the water at a gauge pass a limit, if the water upstream stays as it is?
 *
 *     ahead SHEET GAUGE LIMIT STEPS
 *
 * SHEET, GAUGE and LIMIT are as for gate; STEPS is how far to look. The river is stepped through the sheet's M steps, with U from its
 * boundary rows. At each print interval a forecast takes its state and runs on ahead, through the sheet's flow rows if it has any, and a
 * line says what it found; the river itself stays where it is.
 */
#include "console.h"

static uint8_t sheet[YUMBAQEL_LONGEST_SHEET + 1];
static struct yumbaqel_reach reaches[YUMBAQEL_MOST_REACHES];
static uint32_t words[YUMBAQEL_WORDS(YUMBAQEL_MOST_SEGMENTS)];
static uint64_t wide_words[YUMBAQEL_WIDE_WORDS(YUMBAQEL_MOST_SEGMENTS)];
static uint32_t set_words[YUMBAQEL_SET_WORDS(YUMBAQEL_MOST_SEGMENTS)];
static uint32_t row_words[YUMBAQEL_ROW_WORDS(YUMBAQEL_MOST_ROWS)];

/* The forecast is a river with lists of its own, so that it may stand at another flow row, and run in a task that the river's steps break
   in upon. Without flow rows a copy (yumbaqel_river_lend_copy) does the same with less memory. */
static struct yumbaqel_reach forecast_reaches[YUMBAQEL_MOST_REACHES];
static uint32_t forecast_words[YUMBAQEL_WORDS(YUMBAQEL_MOST_SEGMENTS)];
static uint64_t forecast_wide_words[YUMBAQEL_WIDE_WORDS(YUMBAQEL_MOST_SEGMENTS)];
static uint32_t forecast_set_words[YUMBAQEL_SET_WORDS(YUMBAQEL_MOST_SEGMENTS)];

/* Whether the forecast passes the limit within so many steps; it stands there then. After 100,000 steps no river goes on (15). */
static int passes(struct yumbaqel_river *forecast, uint32_t segment, unsigned long limit, unsigned long most)
{
    struct yumbaqel_figures figures = {0, 0, 0};
    const uint32_t from = forecast->done;
    struct yumbaqel_refusal told;
    for (;;) {
        need(yumbaqel_river_report(forecast, segment, &figures));
        if (figures.channel > limit)
            return 1;
        if (forecast->done - from >= most)
            return 0;
        need(yumbaqel_river_sets(forecast, forecast_reaches, YUMBAQEL_MOST_REACHES));
        told = yumbaqel_river_step(forecast, forecast->upstream);
        if (told.number == YUMBAQEL_STEPS_DONE)
            return 0;
        need(told);
    }
}

int main(int count, char **arguments)
{
    struct yumbaqel_river river, forecast;
    unsigned long gauge, limit, most;
    uint32_t segment, steps, u = 0;
    size_t length;
    int above;

    if (count != 5)
        leave("usage: ahead SHEET GAUGE LIMIT STEPS");
    gauge = strtoul(arguments[2], NULL, 10);
    limit = strtoul(arguments[3], NULL, 10);
    most = strtoul(arguments[4], NULL, 10);

    yumbaqel_river_lend(&river, YUMBAQEL_MOST_SEGMENTS, words, wide_words);
    yumbaqel_river_lend_set(&river, YUMBAQEL_MOST_SEGMENTS, set_words);
    yumbaqel_river_lend_rows(&river, YUMBAQEL_MOST_ROWS, row_words);
    length = read_bytes(arguments[1], sheet, sizeof sheet);
    need(yumbaqel_river_load(&river, sheet, length, reaches, YUMBAQEL_MOST_REACHES));
    need(yumbaqel_river_rows(&river));
    segment = yumbaqel_river_gauge(&river, gauge - 1);
    if (segment == 0)
        leave("ahead: the sheet has no such gauge");

    /* The sheet's M is the river's affair: the forecast may look past it. */
    yumbaqel_river_lend(&forecast, YUMBAQEL_MOST_SEGMENTS, forecast_words, forecast_wide_words);
    yumbaqel_river_lend_set(&forecast, YUMBAQEL_MOST_SEGMENTS, forecast_set_words);
    need(yumbaqel_river_load(&forecast, sheet, length, forecast_reaches, YUMBAQEL_MOST_REACHES));
    forecast.loaded.steps = YUMBAQEL_MOST_STEPS;

    need(yumbaqel_river_upstream(&river, 0, &u));
    need(yumbaqel_river_start(&river, u));
    for (;;) {
        if (river.done % river.loaded.interval == 0) {
            need(yumbaqel_river_copy_state(&forecast, &river));
            above = passes(&forecast, segment, limit, most);
            steps = forecast.done - river.done;
            if (above)
                printf("step %u: above in %u steps, %lu s\n", (unsigned)river.done, (unsigned)steps,
                       (unsigned long)steps * yumbaqel_river_dt(&river));
            else
                printf("step %u: not above in %u steps\n", (unsigned)river.done, (unsigned)steps);
        }
        if (river.done == river.loaded.steps)
            break;
        need(yumbaqel_river_upstream(&river, river.done + 1, &u));
        need(yumbaqel_river_sets(&river, reaches, YUMBAQEL_MOST_REACHES));
        need(yumbaqel_river_step(&river, u));
    }
    printf("done %u\n", (unsigned)river.done);
    return 0;
}
