/*
 * A look ahead: at which step will the water at a gauge first be above a limit?
 *
 *     forecast SHEET GAUGE LIMIT HORIZON
 *
 * SHEET, GAUGE and LIMIT are as for gate; HORIZON is how many steps to look ahead. The river is stepped through the sheet's M steps, with U
 * from its boundary rows. At each print interval a forecast runs on ahead on a copy, with U and flows from the sheet, and a line says what
 * it found; the river itself stays where it is. A forecast past M is refused (20), so near the end of the run it looks ahead to M.
 */
#include "console.h"

static uint8_t sheet[YUMBAQEL_LONGEST_SHEET + 1];
static struct yumbaqel_reach reaches[YUMBAQEL_MOST_REACHES];
static uint32_t words[YUMBAQEL_WORDS(YUMBAQEL_MOST_SEGMENTS)];
static uint64_t wide_words[YUMBAQEL_WIDE_WORDS(YUMBAQEL_MOST_SEGMENTS)];
static uint32_t set_words[YUMBAQEL_SET_WORDS(YUMBAQEL_MOST_SEGMENTS)];
static uint32_t row_words[YUMBAQEL_ROW_WORDS(YUMBAQEL_MOST_ROWS)];

/* The copy has lists of its own for state, highest figures and work, and for both sides of a step: a forecast only reads the river. */
static uint32_t copy_words[YUMBAQEL_COPY_WORDS(YUMBAQEL_MOST_SEGMENTS)];
static uint64_t copy_wide_words[YUMBAQEL_WIDE_WORDS(YUMBAQEL_MOST_SEGMENTS)];
static uint32_t side_words[YUMBAQEL_SIDES_WORDS(YUMBAQEL_MOST_SEGMENTS)];

/* What the operator sees. The copy stands afterwards at the step that is named. */
static void look_ahead(struct yumbaqel_river *copy, const struct yumbaqel_river *river, uint32_t gauge, uint32_t limit, unsigned long horizon)
{
    const uint32_t left = river->loaded.steps - river->done;
    uint32_t above = 0;
    need(yumbaqel_river_forecast(copy, river, gauge, limit, horizon < left ? (uint32_t)horizon : left, &above));
    if (above)
        printf("step %u: first above at step %u, that is after %lu seconds\n", (unsigned)river->done, (unsigned)copy->done,
               (unsigned long)(copy->done - river->done) * yumbaqel_river_dt(river));
    else
        printf("step %u: not above up to step %u\n", (unsigned)river->done, (unsigned)copy->done);
}

int main(int count, char **arguments)
{
    struct yumbaqel_river river, copy;
    unsigned long gauge, limit, horizon;
    uint32_t segment, u = 0;

    if (count != 5)
        leave("usage: forecast SHEET GAUGE LIMIT HORIZON");
    if (yumbaqel_version() != YUMBAQEL_VERSION)
        leave("forecast: the header is not the library's");
    gauge = strtoul(arguments[2], NULL, 10);
    limit = strtoul(arguments[3], NULL, 10);
    horizon = strtoul(arguments[4], NULL, 10);
    if (limit > YUMBAQEL_HIGHEST)
        limit = YUMBAQEL_HIGHEST;      /* no figure is above that one either */

    yumbaqel_river_lend(&river, YUMBAQEL_MOST_SEGMENTS, words, wide_words);
    yumbaqel_river_lend_set(&river, YUMBAQEL_MOST_SEGMENTS, set_words);
    yumbaqel_river_lend_rows(&river, YUMBAQEL_MOST_ROWS, row_words);
    need(yumbaqel_river_load(&river, sheet, read_bytes(arguments[1], sheet, sizeof sheet), reaches, YUMBAQEL_MOST_REACHES));
    need(yumbaqel_river_rows(&river));
    segment = yumbaqel_river_gauge(&river, gauge - 1);
    if (segment == 0)
        leave("forecast: the sheet has no such gauge");
    yumbaqel_river_lend_copy(&copy, &river, YUMBAQEL_MOST_SEGMENTS, copy_words, copy_wide_words);
    yumbaqel_river_lend_sides(&copy, YUMBAQEL_MOST_SEGMENTS, side_words);

    need(yumbaqel_river_upstream(&river, 0, &u));
    need(yumbaqel_river_start(&river, u));
    for (;;) {
        if (river.done % river.loaded.interval == 0)
            look_ahead(&copy, &river, segment, (uint32_t)limit, horizon);
        if (river.done == river.loaded.steps)
            break;
        need(yumbaqel_river_upstream(&river, river.done + 1, &u));
        need(yumbaqel_river_sets(&river, reaches, YUMBAQEL_MOST_REACHES));
        need(yumbaqel_river_step(&river, u));
    }
    printf("done %u\n", (unsigned)river.done);
    return 0;
}
