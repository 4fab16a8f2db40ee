/*
 * The operator's key: is any of the river above a limit?
 *
 *     key SHEET LIMIT
 *
 * SHEET and LIMIT are as for gate. The river is stepped through the sheet's M steps, with U from its boundary rows and the flow of its flow
 * rows, if it has any. The key is pressed at the start and at each print interval: a line says that none of the river is above the limit,
 * or names a segment that is; where several are, it may be any of them.
 */
#include "console.h"

static uint8_t sheet[YUMBAQEL_LONGEST_SHEET + 1];
static struct yumbaqel_reach reaches[YUMBAQEL_MOST_REACHES];
static uint32_t words[YUMBAQEL_WORDS(YUMBAQEL_MOST_SEGMENTS)];
static uint64_t wide_words[YUMBAQEL_WIDE_WORDS(YUMBAQEL_MOST_SEGMENTS)];
static uint32_t set_words[YUMBAQEL_SET_WORDS(YUMBAQEL_MOST_SEGMENTS)];
static uint32_t row_words[YUMBAQEL_ROW_WORDS(YUMBAQEL_MOST_ROWS)];

/* What the key shows. The search looks at the highest figure of each sixteen segments, which start and step keep, and then at sixteen
   segments at most: the display does not wait for a river of 1,024. */
static void press(const struct yumbaqel_river *river, uint32_t limit)
{
    uint32_t segment = 0;
    need(yumbaqel_river_search(river, limit, &segment));
    if (segment == 0)
        printf("step %u: none above\n", (unsigned)river->done);
    else
        printf("step %u: above at segment %u\n", (unsigned)river->done, (unsigned)segment);
}

int main(int count, char **arguments)
{
    struct yumbaqel_river river;
    unsigned long limit;
    uint32_t u = 0;

    if (count != 3)
        leave("usage: key SHEET LIMIT");
    if (yumbaqel_version() != YUMBAQEL_VERSION)
        leave("key: the header is not the library's");
    limit = strtoul(arguments[2], NULL, 10);
    if (limit > YUMBAQEL_HIGHEST)
        limit = YUMBAQEL_HIGHEST;      /* no figure is above that one either */

    yumbaqel_river_lend(&river, YUMBAQEL_MOST_SEGMENTS, words, wide_words);
    yumbaqel_river_lend_set(&river, YUMBAQEL_MOST_SEGMENTS, set_words);
    yumbaqel_river_lend_rows(&river, YUMBAQEL_MOST_ROWS, row_words);
    need(yumbaqel_river_load(&river, sheet, read_bytes(arguments[1], sheet, sizeof sheet), reaches, YUMBAQEL_MOST_REACHES));
    need(yumbaqel_river_rows(&river));

    need(yumbaqel_river_upstream(&river, 0, &u));
    need(yumbaqel_river_start(&river, u));
    for (;;) {
        if (river.done % river.loaded.interval == 0)
            press(&river, (uint32_t)limit);
        if (river.done == river.loaded.steps)
            break;
        need(yumbaqel_river_upstream(&river, river.done + 1, &u));
        need(yumbaqel_river_sets(&river, reaches, YUMBAQEL_MOST_REACHES));
        need(yumbaqel_river_step(&river, u));
    }
    printf("done %u\n", (unsigned)river.done);
    return 0;
}
