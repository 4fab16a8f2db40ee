/*
 * An intake gate that shuts while the river before it stands above a limit.
 *
 *     gate SHEET GAUGE LIMIT
 *
 * SHEET is a river sheet ("-": standard input), GAUGE one of its gauges, from 1, and LIMIT a concentration in ng/L. The river is stepped
 * through the sheet's M steps with U from the sheet's boundary rows; a controller hands over its reading upstream instead. The flow is
 * that of the sheet's flow rows, if it has any. The gate is open at the start; a line is printed whenever it moves, and at the end how many
 * steps were made.
 *
 * A figure may be off the exact river by yumbaqel_most_off of the steps done, so the gate is shut while the figure and that margin together
 * are above the limit: after every step at which the exact river stands above the limit, the gate is shut.
 */
#include "console.h"

/* No heap: a controller has these lists in its static memory. One byte more than the longest sheet shows that a sheet is too long. */
static uint8_t sheet[YUMBAQEL_LONGEST_SHEET + 1];
static struct yumbaqel_reach reaches[YUMBAQEL_MOST_REACHES];
static uint32_t words[YUMBAQEL_WORDS(YUMBAQEL_MOST_SEGMENTS)];
static uint64_t wide_words[YUMBAQEL_WIDE_WORDS(YUMBAQEL_MOST_SEGMENTS)];
static uint32_t set_words[YUMBAQEL_SET_WORDS(YUMBAQEL_MOST_SEGMENTS)];
static uint32_t row_words[YUMBAQEL_ROW_WORDS(YUMBAQEL_MOST_ROWS)];

int main(int count, char **arguments)
{
    struct yumbaqel_river river;
    struct yumbaqel_figures figures = {0, 0, 0};
    unsigned long gauge, limit;
    uint32_t segment, u = 0;
    int shut = 0;

    if (count != 4)
        leave("usage: gate SHEET GAUGE LIMIT");
    if (yumbaqel_version() != YUMBAQEL_VERSION)
        leave("gate: the header is not the library's");
    gauge = strtoul(arguments[2], NULL, 10);
    limit = strtoul(arguments[3], NULL, 10);

    yumbaqel_river_lend(&river, YUMBAQEL_MOST_SEGMENTS, words, wide_words);
    yumbaqel_river_lend_set(&river, YUMBAQEL_MOST_SEGMENTS, set_words);
    yumbaqel_river_lend_rows(&river, YUMBAQEL_MOST_ROWS, row_words);
    need(yumbaqel_river_load(&river, sheet, read_bytes(arguments[1], sheet, sizeof sheet), reaches, YUMBAQEL_MOST_REACHES));
    need(yumbaqel_river_rows(&river));
    segment = yumbaqel_river_gauge(&river, gauge - 1);
    if (segment == 0)
        leave("gate: the sheet has no such gauge");

    need(yumbaqel_river_upstream(&river, 0, &u));
    need(yumbaqel_river_start(&river, u));
    while (river.done < river.loaded.steps) {
        need(yumbaqel_river_upstream(&river, river.done + 1, &u));
        need(yumbaqel_river_sets(&river, reaches, YUMBAQEL_MOST_REACHES));
        need(yumbaqel_river_step(&river, u));
        need(yumbaqel_river_report(&river, segment, &figures));
        if ((figures.channel + yumbaqel_most_off(river.done) > limit) != shut) {
            shut = !shut;
            printf("%s at step %u, after %lu s\n", shut ? "shut" : "open", (unsigned)river.done,
                   (unsigned long)river.done * yumbaqel_river_dt(&river));
        }
    }
    printf("done %u\n", (unsigned)river.done);
    return 0;
}
