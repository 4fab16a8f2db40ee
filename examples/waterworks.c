/*
 * A waterworks: several rivers in one hut, and a gate in each that shuts while its river stands above its limit.
 *
 *     waterworks [forecast] SHEET GAUGE LIMIT [SHEET GAUGE LIMIT ..]
 *
 * SHEET, GAUGE and LIMIT are as for gate, of each stream in turn; SHEET is a file. The streams are opened in their order, each under the
 * lowest number that is free. One that finds no number or no room (17) waits, and those behind it, until another one is closed. The open
 * rivers are stepped in turn, with U from their sheets' boundary rows and the flow of their flow rows. Each gate is open at the start, and
 * then shut while the figure and the margin of the river's own steps together are above its limit, as that of gate.
 *
 * With the word forecast a stream that is opened is forecast over its M steps, and a line says when its gauge will first be above the limit
 * by its figure.
 *
 * After its M steps a river is closed, and so is at once one whose sheet has no such gauge. The number that it leaves is opened again for
 * the next stream that waits; naming the same SHEET twice opens the same river again, from its start. A line is printed when a stream is
 * opened or refused or has no such gauge, when its gate moves, and at its end.
 */
#include "console.h"

/* What the rivers share, and the reach records, which are of use during a call alone. */
static uint32_t words[YUMBAQEL_SHARED_WORDS];
static uint64_t wide_words[YUMBAQEL_WIDE_WORDS(YUMBAQEL_MOST_SEGMENTS)];
static struct yumbaqel_reach reaches[YUMBAQEL_MOST_REACHES];
static struct yumbaqel_shared shared;

/* For forecasts, of one river after the other; the working lists serve them between two steps. */
static uint32_t copy_words[YUMBAQEL_COPY_WORDS(YUMBAQEL_MOST_SEGMENTS)], side_words[YUMBAQEL_SIDES_WORDS(YUMBAQEL_MOST_SEGMENTS)];
static struct yumbaqel_river copy;
static int foretold;

/* The river of a number and its gate. A controller that knows how long its rivers are lends each of them that many segments. */
static struct stream {
    struct yumbaqel_river river;
    uint8_t sheet[YUMBAQEL_LONGEST_SHEET + 1];
    uint32_t words[YUMBAQEL_LOADING_WORDS(YUMBAQEL_MOST_SEGMENTS)];
    uint32_t highest_words[YUMBAQEL_BLOCKS];
    uint32_t set_words[YUMBAQEL_SET_WORDS(YUMBAQEL_MOST_SEGMENTS)];
    uint32_t row_words[YUMBAQEL_ROW_WORDS(YUMBAQEL_MOST_ROWS)];
    unsigned which;                /* its place among the arguments, from 1 */
    unsigned long limit;
    uint32_t segment;
    int shut;
} streams[YUMBAQEL_MOST_RIVERS];

/* The lowest number under which no river is open, or 0. */
static uint32_t free_number(void)
{
    uint32_t number;
    for (number = 1; number <= YUMBAQEL_MOST_RIVERS; number++)
        if (shared.table.slots[number - 1].opened == 0)
            return number;
    return 0;
}

/* When the gauge of a river that was started will first be above its limit. */
static void look_ahead(uint32_t number, const struct stream *stream)
{
    const struct yumbaqel_river *const river = &stream->river;
    const uint32_t limit = stream->limit < YUMBAQEL_HIGHEST ? (uint32_t)stream->limit : YUMBAQEL_HIGHEST;
    uint32_t above = 0;
    yumbaqel_river_lend_copy(&copy, river, YUMBAQEL_MOST_SEGMENTS, copy_words, wide_words);
    yumbaqel_river_lend_sides(&copy, YUMBAQEL_MOST_SEGMENTS, side_words);
    need(yumbaqel_shared_forecast(&shared, number, &copy, river, stream->segment, limit, river->loaded.steps, &above));
    if (above)
        printf("stream %u first above at step %u, that is after %lu seconds\n", stream->which, (unsigned)copy.done,
               (unsigned long)copy.done * yumbaqel_river_dt(river));
    else
        printf("stream %u not above up to step %u\n", stream->which, (unsigned)copy.done);
}

/* Opens a stream under a number. Says no where it has to wait; one that is refused for good, or has no such gauge, is done with. */
static int open_stream(uint32_t number, unsigned which, char **words_of)
{
    struct stream *const stream = &streams[number - 1];
    struct yumbaqel_river *const river = &stream->river;
    const size_t length = read_bytes(words_of[0], stream->sheet, sizeof stream->sheet);
    struct yumbaqel_refusal told;
    uint32_t u = 0;
    yumbaqel_shared_lend_river(&shared, river, YUMBAQEL_MOST_SEGMENTS, stream->words, stream->highest_words);
    yumbaqel_river_lend_set(river, YUMBAQEL_MOST_SEGMENTS, stream->set_words);
    yumbaqel_river_lend_rows(river, YUMBAQEL_MOST_ROWS, stream->row_words);
    told = yumbaqel_shared_open(&shared, number, river, stream->sheet, length, reaches, YUMBAQEL_MOST_REACHES, u);
    if (told.number == YUMBAQEL_NO_ROOM)
        return 0;
    printf("stream %u ", which);
    if (told.number != YUMBAQEL_ACCEPTED) {
        print_refusal(told);
        return 1;
    }
    stream->segment = yumbaqel_river_gauge(river, strtoul(words_of[1], NULL, 10) - 1);
    if (stream->segment == 0) {
        printf("has no such gauge\n");
        need(yumbaqel_shared_close(&shared, number));
        return 1;
    }
    printf("opened as river %u\n", (unsigned)number);
    stream->which = which;
    stream->limit = strtoul(words_of[2], NULL, 10);
    stream->shut = 0;
    need(yumbaqel_river_rows(river));          /* a loaded sheet's rows give U at step 0, with which it is started again */
    need(yumbaqel_river_upstream(river, 0, &u));
    need(yumbaqel_shared_start(&shared, number, river, u));
    if (foretold)
        look_ahead(number, stream);
    return 1;
}

/* One step of an open river; its gate follows. After the last step it is closed: says whether it was. */
static int step_stream(uint32_t number)
{
    struct stream *const stream = &streams[number - 1];
    struct yumbaqel_river *const river = &stream->river;
    struct yumbaqel_figures figures = {0, 0, 0};
    uint32_t u = 0;
    need(yumbaqel_river_upstream(river, river->done + 1, &u));
    need(yumbaqel_river_sets(river, reaches, YUMBAQEL_MOST_REACHES));
    need(yumbaqel_shared_step(&shared, number, river, u));
    need(yumbaqel_shared_report(&shared, number, river, stream->segment, &figures));
    if ((figures.channel + yumbaqel_most_off(river->done) > stream->limit) != stream->shut) {
        stream->shut = !stream->shut;
        printf("stream %u %s at step %u, after %lu s\n", stream->which, stream->shut ? "shut" : "open", (unsigned)river->done,
               (unsigned long)river->done * yumbaqel_river_dt(river));
    }
    if (river->done < river->loaded.steps)
        return 0;
    need(yumbaqel_shared_close(&shared, number));
    printf("stream %u done %u\n", stream->which, (unsigned)river->done);
    return 1;
}

int main(int count, char **arguments)
{
    int next = 1, open, closed = 1;    /* closed: one that waits may find a number and room now, as at the start */
    uint32_t number;

    foretold = count % 3 == 2 && strcmp(arguments[1], "forecast") == 0;
    count -= foretold;
    arguments += foretold;
    if (count < 4 || count % 3 != 1)
        leave("usage: waterworks [forecast] SHEET GAUGE LIMIT [SHEET GAUGE LIMIT ..]");
    if (yumbaqel_version() != YUMBAQEL_VERSION)
        leave("waterworks: the header is not the library's");
    yumbaqel_shared_lend(&shared, words, wide_words);
    do {
        while (closed && next < count && (number = free_number()) != 0
               && open_stream(number, (unsigned)(next + 2) / 3, arguments + next))
            next += 3;
        open = closed = 0;
        for (number = 1; number <= YUMBAQEL_MOST_RIVERS; number++)
            if (shared.table.slots[number - 1].opened != 0) {
                open = 1;
                closed |= step_stream(number);
            }
    } while (open || next < count);
    return 0;
}
