/*
 * A river that survives a reset at any moment.
 *
 *     reset SHEET MEMORY [WORDS]
 *
 * The river is stepped through the sheet's M steps, with U from its boundary rows, and its listing is printed. Two copies of the state
 * lie in memory that outlives a reset. After each step the older one is written over, its check last; until that check is right, the
 * other one stands. MEMORY is a file in place of that memory. With WORDS, power fails when that many words have been written to it, in
 * the middle of the next. Called again, the program goes on from the last state that is whole: the listing begins with that step.
 */
#include "console.h"

static uint8_t sheet[YUMBAQEL_LONGEST_SHEET + 1];
static struct yumbaqel_reach reaches[YUMBAQEL_MOST_REACHES];
static uint32_t words[YUMBAQEL_WORDS(YUMBAQEL_MOST_SEGMENTS)];
static uint64_t wide_words[YUMBAQEL_WIDE_WORDS(YUMBAQEL_MOST_SEGMENTS)];
static uint32_t set_words[YUMBAQEL_SET_WORDS(YUMBAQEL_MOST_SEGMENTS)];
static uint32_t row_words[YUMBAQEL_ROW_WORDS(YUMBAQEL_MOST_ROWS)];

/* A copy in words: its number, U, the count of steps, C, Z and W of each segment, the highest figures; and the check of all these. */
enum { NUMBER, UPSTREAM, DONE, FIGURES, MOST = FIGURES + YUMBAQEL_COPY_WORDS(YUMBAQEL_MOST_SEGMENTS) + 1 };

static uint32_t kept[2][MOST];     /* in a controller: battery-backed or ferroelectric memory, which start-up leaves alone */

static const char *memory;
static unsigned long words_left;
static int power_fails;

static void store_memory(void)
{
    FILE *file = fopen(memory, "wb");
    if (file == NULL || fwrite(kept, sizeof kept, 1, file) != 1 || fclose(file) != 0)
        leave("reset: the memory cannot be written");
}

/* One word into the memory. The writes stay in this order: volatile holds the compiler to it; a core that reorders them needs its
   barrier here. A word that power fails in may hold anything. */
static void put(volatile uint32_t *at, uint32_t word)
{
    if (power_fails && words_left-- == 0) {
        *at = ~word;
        store_memory();
        exit(3);
    }
    *at = word;
}

/* FNV-1a, by words: a change of one word always changes the check. */
static uint32_t mixed(uint32_t check, uint32_t word)
{
    return (check ^ word) * 16777619u;
}

/* The check of a copy; that of the sheet goes into it, so that the state of another river is not taken for this one's. */
static uint32_t check_of(const uint32_t *copy, const struct yumbaqel_river *river)
{
    uint32_t check = 2166136261u;
    size_t i;
    for (i = 0; i < river->sheet_length; i++)
        check = mixed(check, river->sheet[i]);
    for (i = 0; i < FIGURES + YUMBAQEL_COPY_WORDS(river->loaded.segments); i++)
        check = mixed(check, copy[i]);
    return check;
}

static int is_whole(const uint32_t *copy, const struct yumbaqel_river *river)
{
    return copy[FIGURES + YUMBAQEL_COPY_WORDS(river->loaded.segments)] == check_of(copy, river);
}

/* The state as copy number so-and-so, in place of the one before the last. */
static void keep(const struct yumbaqel_river *river, uint32_t number)
{
    const uint32_t n = river->loaded.segments;
    uint32_t *copy = kept[number % 2], i;
    put(&copy[NUMBER], number);
    put(&copy[UPSTREAM], river->upstream);
    put(&copy[DONE], river->done);
    for (i = 0; i < n; i++) {
        put(&copy[FIGURES + i], river->channel.at[i]);
        put(&copy[FIGURES + n + i], river->storage.at[i]);
        put(&copy[FIGURES + 2 * n + i], river->sediment.at[i]);
    }
    for (i = 0; i < YUMBAQEL_HIGHEST_WORDS(n); i++)
        put(&copy[FIGURES + 3 * n + i], river->highest.at[i]);
    put(&copy[FIGURES + YUMBAQEL_COPY_WORDS(n)], check_of(copy, river));
}

/* The newer of the copies that are whole becomes the river's state; its number, or 0 where none is. */
static uint32_t recall(struct yumbaqel_river *river)
{
    struct yumbaqel_river state;
    uint32_t *found = NULL;
    int i;
    for (i = 0; i < 2; i++)
        if (is_whole(kept[i], river) && (found == NULL || kept[i][NUMBER] > found[NUMBER]))
            found = kept[i];
    if (found == NULL)
        return 0;
    /* A copy of the river with its lists in that memory; it is never stepped and needs no working lists of its own. */
    yumbaqel_river_lend_copy(&state, river, river->loaded.segments, &found[FIGURES], wide_words);
    state.upstream = found[UPSTREAM];
    state.done = found[DONE];
    need(yumbaqel_river_copy_state(river, &state));
    return found[NUMBER];
}

/* The lines of the step that was made last, as program `river` prints them. */
static void print(const struct yumbaqel_river *river)
{
    struct yumbaqel_figures figures = {0, 0, 0};
    uint32_t j, segment;
    if (river->done == 0 || river->done % river->loaded.interval != 0)
        return;
    for (j = 0; j < river->loaded.gauges; j++) {
        segment = yumbaqel_river_gauge(river, j);
        need(yumbaqel_river_report(river, segment, &figures));
        printf("%u %u %u %u %llu\n", (unsigned)river->done, (unsigned)segment, (unsigned)figures.channel,
               (unsigned)figures.storage, (unsigned long long)figures.sediment);
    }
}

int main(int count, char **arguments)
{
    struct yumbaqel_river river;
    uint32_t number, u = 0;
    FILE *file;

    if (count != 3 && count != 4)
        leave("usage: reset SHEET MEMORY [WORDS]");
    memory = arguments[2];
    power_fails = count == 4;
    words_left = power_fails ? strtoul(arguments[3], NULL, 10) : 0;
    file = fopen(memory, "rb");
    if (file != NULL && (fread(kept, sizeof kept, 1, file) != 1 || fclose(file) != 0))
        leave("reset: the memory cannot be read");

    /* After a reset everything but those copies is made anew: a call that was broken off has left the river's lists half-written. */
    yumbaqel_river_lend(&river, YUMBAQEL_MOST_SEGMENTS, words, wide_words);
    yumbaqel_river_lend_set(&river, YUMBAQEL_MOST_SEGMENTS, set_words);
    yumbaqel_river_lend_rows(&river, YUMBAQEL_MOST_ROWS, row_words);
    need(yumbaqel_river_load(&river, sheet, read_bytes(arguments[1], sheet, sizeof sheet), reaches, YUMBAQEL_MOST_REACHES));
    need(yumbaqel_river_rows(&river));

    number = recall(&river);
    if (number == 0) {
        need(yumbaqel_river_upstream(&river, 0, &u));
        need(yumbaqel_river_start(&river, u));
        keep(&river, ++number);
        printf("step segment channel storage sediment\n");
    }
    for (;;) {
        print(&river);
        if (river.done == river.loaded.steps)
            break;
        need(yumbaqel_river_upstream(&river, river.done + 1, &u));
        need(yumbaqel_river_sets(&river, reaches, YUMBAQEL_MOST_REACHES));   /* after a reset also that of the flow in force */
        need(yumbaqel_river_step(&river, u));
        keep(&river, ++number);
    }
    printf("done %u\n", (unsigned)river.done);
    store_memory();
    return 0;
}
