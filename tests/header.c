/*
 * What a header says and does, on standard output: every constant, macro, enum number and field (offset and size), and then every helper
 * on rivers and on what they share, by the commands on standard input. test_header.py compiles it against the header under test.
 *
 *     header SHEET OTHER_SHEET THIRD_SHEET < COMMANDS
 *
 * A forecast is made of one river into the other, which the command names. After each command both rivers and what they share are printed
 * whole, by the names of their fields. The library is behind a recorder, which prints the lengths and figures that each call was handed,
 * or, with `marks`, answers by itself. With NAMES defined the rivers are left out.
 */
#include <stddef.h>
#include <stdio.h>
#include <stdlib.h>
#include <string.h>

#include "yumbaqel.h"

#define SIZE(array) (sizeof(array) / sizeof *(array))
#define UNSIGNED(figure) ((unsigned long long)(figure))

/* ---- Names and layout. The tables are complete, as test_header.py sees to. */

#define CONSTANTS(X) \
    X(YUMBAQEL_VERSION) X(YUMBAQEL_SCALE) X(YUMBAQEL_HIGHEST) X(YUMBAQEL_MOST_SEGMENTS) X(YUMBAQEL_MOST_STEPS) X(YUMBAQEL_MOST_HORIZON) \
    X(YUMBAQEL_MOST_REACHES) X(YUMBAQEL_MOST_ROWS) X(YUMBAQEL_MOST_GAUGES) X(YUMBAQEL_MOST_FLOW_ROWS) X(YUMBAQEL_MOST_BANDS) \
    X(YUMBAQEL_MOST_RIVERS) X(YUMBAQEL_BLOCKS) X(YUMBAQEL_NO_FLOW) X(YUMBAQEL_LONGEST_SHEET) X(YUMBAQEL_STACK) X(YUMBAQEL_SHARED_WORDS)
#define ENUMS(X) \
    X(YUMBAQEL_ACCEPTED) X(YUMBAQEL_MARK) X(YUMBAQEL_SHORT_SHEET) X(YUMBAQEL_COUNT) X(YUMBAQEL_LONG_SHEET) X(YUMBAQEL_HEADER) \
    X(YUMBAQEL_REACH_FIELD) X(YUMBAQEL_SEGMENTS) X(YUMBAQEL_BOUNDARY_ROW) X(YUMBAQEL_GAUGE) X(YUMBAQEL_FLOW) X(YUMBAQEL_FACE) \
    X(YUMBAQEL_SUM) X(YUMBAQEL_SHORT_LIST) X(YUMBAQEL_FIGURE) X(YUMBAQEL_STEPS_DONE) X(YUMBAQEL_FLOW_ROW) \
    X(YUMBAQEL_NO_ROOM) X(YUMBAQEL_NOT_OPEN) X(YUMBAQEL_BAND) X(YUMBAQEL_NO_FORECAST) \
    X(YUMBAQEL_NOTHING) X(YUMBAQEL_REACH) X(YUMBAQEL_SEGMENT) X(YUMBAQEL_ROW)
#define MACROS(X) \
    X(YUMBAQEL_HIGHEST_WORDS) X(YUMBAQEL_WORDS) X(YUMBAQEL_LOADING_WORDS) X(YUMBAQEL_SET_WORDS) X(YUMBAQEL_COPY_WORDS) \
    X(YUMBAQEL_WIDE_WORDS) X(YUMBAQEL_SIDES_WORDS) X(YUMBAQEL_ROW_WORDS)
#define CHECKS(X) X(yumbaqel_reach_has_64_bytes) X(yumbaqel_loaded_has_36_bytes) X(yumbaqel_table_has_160_bytes)
#define STRUCTS(X) \
    X(yumbaqel_reach) X(yumbaqel_loaded) X(yumbaqel_slot) X(yumbaqel_table) X(yumbaqel_list) X(yumbaqel_wide_list) X(yumbaqel_set) \
    X(yumbaqel_river) X(yumbaqel_shared) X(yumbaqel_refusal) X(yumbaqel_figures)

#define SET_LISTS(X, of) X(of, e) X(of, g) X(of, l) X(of, a) X(of, b) X(of, k) X(of, ks) X(of, h) X(of, m) X(of, s)
#define STATE_LISTS(X, of) X(of, channel) X(of, storage) X(of, sediment)
#define LISTS(X, of) \
    X(of, cl) X(of, cb) X(of, kd) X(of, start) STATE_LISTS(X, of) X(of, highest) X(of, starts) X(of, concentrations) X(of, sides)
#define FIELDS(X) \
    X(yumbaqel_reach, segments) X(yumbaqel_reach, dispersion) X(yumbaqel_reach, area) X(yumbaqel_reach, area2) \
    X(yumbaqel_reach, alpha) X(yumbaqel_reach, qin) X(yumbaqel_reach, qout) X(yumbaqel_reach, cl) X(yumbaqel_reach, lambda) \
    X(yumbaqel_reach, lambda2) X(yumbaqel_reach, lamhat) X(yumbaqel_reach, lamhat2) X(yumbaqel_reach, rho) X(yumbaqel_reach, kd) \
    X(yumbaqel_reach, cb) X(yumbaqel_reach, start) \
    X(yumbaqel_loaded, steps) X(yumbaqel_loaded, interval) X(yumbaqel_loaded, segments) X(yumbaqel_loaded, rows_at) \
    X(yumbaqel_loaded, rows) X(yumbaqel_loaded, gauges_at) X(yumbaqel_loaded, gauges) X(yumbaqel_loaded, flow_rows_at) \
    X(yumbaqel_loaded, flow_rows) \
    X(yumbaqel_slot, opened) X(yumbaqel_slot, first) X(yumbaqel_slot, segments) X(yumbaqel_slot, upstream) X(yumbaqel_slot, steps) \
    X(yumbaqel_table, slots) \
    X(yumbaqel_list, at) X(yumbaqel_list, length) X(yumbaqel_wide_list, at) X(yumbaqel_wide_list, length) \
    SET_LISTS(X, yumbaqel_set) X(yumbaqel_set, flow) X(yumbaqel_river, sets) \
    LISTS(X, yumbaqel_river) X(yumbaqel_river, p) X(yumbaqel_river, y) X(yumbaqel_river, upstream) X(yumbaqel_river, done) \
    X(yumbaqel_river, loaded) X(yumbaqel_river, sheet) X(yumbaqel_river, sheet_length) X(yumbaqel_river, rows) \
    STATE_LISTS(X, yumbaqel_shared) X(yumbaqel_shared, p) X(yumbaqel_shared, y) X(yumbaqel_shared, table) \
    X(yumbaqel_refusal, number) X(yumbaqel_refusal, kind) X(yumbaqel_refusal, place) \
    X(yumbaqel_figures, channel) X(yumbaqel_figures, storage) X(yumbaqel_figures, sediment)

#define NUMBER(name) {"number " #name, UNSIGNED(name)},
#define TRIED(name, figure, sum) {"macro " #name " " #figure, UNSIGNED(name(sum))},
#define MACRO(name) TRIED(name, 3, 1 + 2) TRIED(name, 16, 15 + 1) TRIED(name, 17, 16 + 1)
#define CHECK(name) {"type " #name, sizeof(name)},
#define STRUCT(name) {"struct " #name, sizeof(struct name)},
#define FIELD(structure, name) {#structure, #name, offsetof(struct structure, name), sizeof(((struct structure *)NULL)->name)},

static const struct {
    const char *name;
    unsigned long long figure;
} numbers[] = {CONSTANTS(NUMBER) ENUMS(NUMBER) MACROS(MACRO) CHECKS(CHECK) STRUCTS(STRUCT)};

static const struct field {
    const char *structure, *name;
    size_t offset, size;
} fields[] = {FIELDS(FIELD)};

static void print_names(void)
{
    size_t i;
    for (i = 0; i < SIZE(numbers); i++)
        printf("%s %llu\n", numbers[i].name, numbers[i].figure);
    for (i = 0; i < SIZE(fields); i++)
        printf("field %s %s %llu %llu\n", fields[i].structure, fields[i].name, UNSIGNED(fields[i].offset), UNSIGNED(fields[i].size));
}

#ifdef NAMES

int main(void)
{
    print_names();
    return 0;
}

#else

/* The fields of a struct of numbers, by their names. */
static void print_struct(const char *what, const char *structure, const void *at)
{
    uint32_t figure;
    uint64_t wide;
    size_t i;
    printf(" %s", what);
    for (i = 0; i < SIZE(fields); i++) {
        if (strcmp(fields[i].structure, structure) != 0)
            continue;
        memcpy(&figure, (const char *)at + fields[i].offset, sizeof figure);
        wide = figure;
        if (fields[i].size == sizeof wide)
            memcpy(&wide, (const char *)at + fields[i].offset, sizeof wide);
        printf(" %s %llu", fields[i].name, UNSIGNED(wide));
    }
    printf("\n");
}

/* ---- Rivers, what they share, and the memory that they are lent. Every entry has a figure of its own before. */

#define SHOWN 7                    /* entries of a list that are printed: more than the river has segments */
#define SHARED_SHOWN 17            /* of a shared list: more than three rivers have */
#define ROOM 1100                  /* entries of a list: more than a river may have */
#define HIGHEST_ROOM 69            /* highest figures of as many segments */
#define ROW_ROOM 16

static uint8_t sheets[3][YUMBAQEL_LONGEST_SHEET + 1];
static size_t lengths[3];
static struct yumbaqel_reach reaches[3];
static uint32_t words[17 * ROOM + HIGHEST_ROOM], copy_words[3 * ROOM + HIGHEST_ROOM], row_words[2 * ROW_ROOM];
static uint32_t set_words[10 * ROOM], river_words[14 * ROOM], shared_words[3 * ROOM], highest_words[2 * HIGHEST_ROOM];
static uint32_t side_words[24 * ROOM];
static uint64_t wide_words[2 * ROOM], copy_wide_words[2 * ROOM], shared_wide_words[2 * ROOM];
static struct yumbaqel_river rivers[2];
static struct yumbaqel_shared shared;
static int lent[2], shared_lent;

static const struct {
    const char *name;
    void *at;
    size_t count, size;
} memories[] = {
    {"words", words, SIZE(words), sizeof *words}, {"copy_words", copy_words, SIZE(copy_words), sizeof *copy_words},
    {"row_words", row_words, SIZE(row_words), sizeof *row_words}, {"wide_words", wide_words, SIZE(wide_words), sizeof *wide_words},
    {"copy_wide_words", copy_wide_words, SIZE(copy_wide_words), sizeof *copy_wide_words},
    {"set_words", set_words, SIZE(set_words), sizeof *set_words}, {"river_words", river_words, SIZE(river_words), sizeof *river_words},
    {"shared_words", shared_words, SIZE(shared_words), sizeof *shared_words},
    {"shared_wide_words", shared_wide_words, SIZE(shared_wide_words), sizeof *shared_wide_words},
    {"highest_words", highest_words, SIZE(highest_words), sizeof *highest_words},
    {"side_words", side_words, SIZE(side_words), sizeof *side_words},
    {"sheet", sheets, SIZE(sheets), sizeof *sheets}};

static void fill(void)
{
    uint32_t i, j;
    memset(rivers, 0xA5, sizeof rivers);
    memset(&shared, 0xA5, sizeof shared);
    memset(reaches, 0xA5, sizeof reaches);
    for (i = 0; i < SIZE(memories); i++)
        for (j = 0; j < memories[i].count; j++)
            if (memories[i].size == sizeof(uint32_t))
                ((uint32_t *)memories[i].at)[j] = 1000000 * (i + 1) + j;
            else if (memories[i].size == sizeof(uint64_t))
                ((uint64_t *)memories[i].at)[j] = 1000000 * (i + 1) + j;
}

/* Where an address lies: the memory's name and the entry. */
static void print_place(const void *at)
{
    uintptr_t offset;
    size_t i;
    for (i = 0; i < SIZE(memories); i++) {
        offset = (uintptr_t)at - (uintptr_t)memories[i].at;
        if (offset < memories[i].count * memories[i].size && offset % memories[i].size == 0) {
            printf(" %s %llu", memories[i].name, UNSIGNED(offset / memories[i].size));
            return;
        }
    }
    printf(" ?");
}

static void print_list(const char *name, const struct yumbaqel_list *list, size_t shown)
{
    size_t i;
    printf(" %s", name);
    print_place(list->at);
    printf(" %llu:", UNSIGNED(list->length));
    for (i = 0; i < shown && i < list->length; i++)
        printf(" %llu", UNSIGNED(list->at[i]));
    printf("\n");
}

static void print_wide_list(const char *name, const struct yumbaqel_wide_list *list)
{
    size_t i;
    printf(" %s", name);
    print_place(list->at);
    printf(" %llu:", UNSIGNED(list->length));
    for (i = 0; i < SHOWN && i < list->length; i++)
        printf(" %llu", UNSIGNED(list->at[i]));
    printf("\n");
}

static const struct field lists[] = {LISTS(FIELD, yumbaqel_river)}, set_lists[] = {SET_LISTS(FIELD, yumbaqel_set)};
static const struct field shared_lists[] = {STATE_LISTS(FIELD, yumbaqel_shared)};

/* A list of a river, of a set or of the shared. */
static struct yumbaqel_list *list_of(void *structure, const struct field *field)
{
    return (struct yumbaqel_list *)(void *)((char *)structure + field->offset);
}

static void print_river(struct yumbaqel_river *river)
{
    size_t i, set;
    for (set = 0; set < SIZE(river->sets); set++) {
        printf(" set %llu flow %llu\n", UNSIGNED(set), UNSIGNED(river->sets[set].flow));
        for (i = 0; i < SIZE(set_lists); i++)
            print_list(set_lists[i].name, list_of(&river->sets[set], &set_lists[i]), SHOWN);
    }
    for (i = 0; i < SIZE(lists); i++)
        print_list(lists[i].name, list_of(river, &lists[i]), SHOWN);
    print_wide_list("p", &river->p);
    print_wide_list("y", &river->y);
    printf(" upstream %llu done %llu rows %llu sheet", UNSIGNED(river->upstream), UNSIGNED(river->done), UNSIGNED(river->rows));
    print_place(river->sheet);
    printf(" length %llu\n", UNSIGNED(river->sheet_length));
    print_struct("loaded", "yumbaqel_loaded", &river->loaded);
}

static void print_shared(void)
{
    size_t i;
    printf(" shared\n");
    for (i = 0; i < SIZE(shared_lists); i++)
        print_list(shared_lists[i].name, list_of(&shared, &shared_lists[i]), SHARED_SHOWN);
    print_wide_list("p", &shared.p);
    print_wide_list("y", &shared.y);
    for (i = 0; i < SIZE(shared.table.slots); i++)
        print_struct("slot", "yumbaqel_slot", &shared.table.slots[i]);
}

static void print_told(struct yumbaqel_refusal told)
{
    print_struct("told", "yumbaqel_refusal", &told);
}

#ifdef __cplusplus
extern "C"
#endif
int recorder_marks;                /* the recorder's: number, kind and place are marks, and no call reaches the library */

/* ---- The commands: a name, a river (0 or 1), the name of a field, and two figures. */

#define IS(what) (strcmp(name, what) == 0)

/* A list by its name; that of a set has the set's number and a point before it. */
static struct yumbaqel_list *named(struct yumbaqel_river *river, const char *name)
{
    size_t i;
    if (name[0] != '\0' && name[1] == '.')
        for (i = 0; i < SIZE(set_lists); i++)
            if (strcmp(name + 2, set_lists[i].name) == 0)
                return list_of(&river->sets[name[0] - '0'], &set_lists[i]);
    for (i = 0; i < SIZE(lists); i++)
        if (IS(lists[i].name))
            return list_of(river, &lists[i]);
    exit(2);
}

static int lend(const char *name, struct yumbaqel_river *river, size_t first)
{
    const struct yumbaqel_river *const origin = &rivers[0];
    const struct yumbaqel_shared *const lasting = &shared;
    struct yumbaqel_list *two[2];
    if (IS("shared_lend")) {
        yumbaqel_shared_lend(&shared, shared_words, shared_wide_words);
        shared_lent = 1;
        return 1;
    }
    if (IS("shared_lend_river"))
        yumbaqel_shared_lend_river(lasting, river, first, river == rivers ? words : river_words,
                                   river == rivers ? highest_words : highest_words + HIGHEST_ROOM);
    else if (IS("lend_loading"))
        yumbaqel_river_lend_loading(river, first, river_words);
    else if (IS("lend"))
        yumbaqel_river_lend(river, first, words, wide_words);
    else if (IS("lend_highest"))
        yumbaqel_river_lend_highest(river, first, highest_words);
    else if (IS("lend_state"))
        yumbaqel_river_lend_state(river, first, copy_words, copy_wide_words);
    else if (IS("set_lend"))
        yumbaqel_set_lend(&river->sets[0], first, set_words);
    else if (IS("lend_set"))
        yumbaqel_river_lend_set(river, first, set_words);
    else if (IS("lend_rows"))
        yumbaqel_river_lend_rows(river, first, row_words);
    else if (IS("lend_sides"))
        yumbaqel_river_lend_sides(river, first, side_words);
    else if (IS("lend_copy"))
        yumbaqel_river_lend_copy(river, origin, first, copy_words, copy_wide_words);
    else if (IS("divide")) {
        two[0] = &river->cb;
        two[1] = &river->sets[0].a;
        yumbaqel_divide(two, 2, first, row_words);
    } else
        return 0;
    lent[river - rivers] = 1;
    return 1;
}

/* A report by the macros alone, as a caller may write it. */
static void report_by_macros(const struct yumbaqel_river *river, uint32_t segment)
{
    struct yumbaqel_refusal told;
    struct yumbaqel_figures figures = {11, 12, 13};
    yumbaqel_report(&told.number, &told.kind, &told.place, &figures.channel, &figures.storage, &figures.sediment,
                    river->loaded.segments, YUMBAQEL_SET(&river->sets[0]), YUMBAQEL_OTHERS(river), YUMBAQEL_FIGURES(river),
                    river->upstream, river->done, segment);
    print_told(told);
    print_struct("reported", "yumbaqel_figures", &figures);
}

/* What a forecast is asked beside its gauge; a command of its own puts it there. */
static uint32_t asked_limit, asked_horizon;

/* A forecast by the macros alone. */
static void forecast_by_macros(struct yumbaqel_river *copy, const struct yumbaqel_river *river, uint32_t gauge)
{
    struct yumbaqel_refusal told;
    uint32_t above = 71;
    yumbaqel_forecast(&told.number, &told.kind, &told.place, &above, river->loaded.segments, river->sheet, river->sheet_length,
                      YUMBAQEL_FIGURES(river), river->highest.at, river->highest.length, river->upstream, river->done,
                      YUMBAQEL_COPIES(copy), gauge, asked_limit, asked_horizon);
    print_told(told);
    printf(" above %llu\n", UNSIGNED(above));
}

/* The number of a set of the river, or -1 where there is none. */
static int number_of(const struct yumbaqel_river *river, const struct yumbaqel_set *set)
{
    return set == NULL ? -1 : (int)(set - river->sets);
}

/* What a helper only reads it must take as const. */
static int call(const char *name, struct yumbaqel_river *river, uint32_t first, uint32_t second)
{
    const struct yumbaqel_river *const lasting = river, *const other = &rivers[first % SIZE(rivers)];
    const struct yumbaqel_river *const beside = &rivers[river == rivers];
    const uint8_t *const sheet = sheets[first % SIZE(sheets)];
    struct yumbaqel_figures figures = {21, 22, 23};
    uint32_t u = 31, segment = 51, above = 81;
    size_t i;
    if (IS("load")) {
        print_told(yumbaqel_river_load(river, sheet, lengths[first], reaches, SIZE(reaches)));
        for (i = 0; i < SIZE(reaches); i++)
            print_struct("reach", "yumbaqel_reach", &reaches[i]);
    } else if (IS("rows"))
        print_told(yumbaqel_river_rows(river));
    else if (IS("upstream")) {
        print_told(yumbaqel_river_upstream(lasting, first, &u));
        printf(" u %llu\n", UNSIGNED(u));
    } else if (IS("gauge"))
        printf(" gauge %llu\n", UNSIGNED(yumbaqel_river_gauge(lasting, first)));
    else if (IS("dt"))
        printf(" dt %llu\n", UNSIGNED(yumbaqel_river_dt(lasting)));
    else if (IS("dx"))
        printf(" dx %llu\n", UNSIGNED(yumbaqel_river_dx(lasting)));
    else if (IS("flow"))
        printf(" flow %llu\n", UNSIGNED(yumbaqel_river_flow(lasting, first)));
    else if (IS("set"))
        printf(" set %d\n", number_of(lasting, yumbaqel_river_set(lasting, first)));
    else if (IS("load_flow"))
        print_told(yumbaqel_river_load_flow(river, first, second, reaches, SIZE(reaches)));
    else if (IS("sets"))
        print_told(yumbaqel_river_sets(river, reaches, first));
    else if (IS("start"))
        print_told(yumbaqel_river_start(river, first));
    else if (IS("step"))
        print_told(yumbaqel_river_step(river, first));
    else if (IS("report")) {
        print_told(yumbaqel_river_report(lasting, first, &figures));
        print_struct("reported", "yumbaqel_figures", &figures);
    } else if (IS("search")) {
        print_told(yumbaqel_river_search(lasting, first, &segment));
        printf(" segment %llu\n", UNSIGNED(segment));
    } else if (IS("report_by_macros"))
        report_by_macros(lasting, first);
    else if (IS("copy_state"))
        print_told(yumbaqel_river_copy_state(river, other));
    else if (IS("ask")) {
        asked_limit = first;
        asked_horizon = second;
    } else if (IS("forecast")) {
        print_told(yumbaqel_river_forecast(river, beside, first, asked_limit, asked_horizon, &above));
        printf(" above %llu\n", UNSIGNED(above));
    } else if (IS("forecast_by_macros"))
        forecast_by_macros(river, beside, first);
    else
        return 0;
    return 1;
}

/* What is done with a river of the pool: its number, and one figure more. The sheet of an opening is named by its place among them. */
static int shared_call(const char *name, struct yumbaqel_river *river, const char *field, uint32_t number, uint32_t second)
{
    const struct yumbaqel_river *const lasting = river, *const beside = &rivers[river == rivers];
    const struct yumbaqel_shared *const standing = &shared;
    const size_t which = strcmp(field, "other") == 0 ? 1 : strcmp(field, "third") == 0 ? 2 : 0;
    const uint8_t *const sheet = sheets[which];
    struct yumbaqel_figures figures = {41, 42, 43};
    uint32_t segment = 61, above = 91;
    size_t i;
    if (IS("open")) {
        print_told(yumbaqel_shared_open(&shared, number, river, sheet, lengths[which], reaches, SIZE(reaches), second));
        for (i = 0; i < SIZE(reaches); i++)
            print_struct("reach", "yumbaqel_reach", &reaches[i]);
    } else if (IS("shared_start"))
        print_told(yumbaqel_shared_start(&shared, number, river, second));
    else if (IS("shared_step"))
        print_told(yumbaqel_shared_step(&shared, number, river, second));
    else if (IS("shared_report")) {
        print_told(yumbaqel_shared_report(standing, number, lasting, second, &figures));
        print_struct("reported", "yumbaqel_figures", &figures);
    } else if (IS("shared_search")) {
        print_told(yumbaqel_shared_search(standing, number, lasting, second, &segment));
        printf(" segment %llu\n", UNSIGNED(segment));
    } else if (IS("shared_forecast")) {
        print_told(yumbaqel_shared_forecast(standing, number, river, beside, second, asked_limit, asked_horizon, &above));
        printf(" above %llu\n", UNSIGNED(above));
    } else if (IS("close"))
        print_told(yumbaqel_shared_close(&shared, number));
    else if (IS("follow"))
        yumbaqel_shared_follow(standing, number, river);
    else if (IS("keep"))
        yumbaqel_river_keep(river, sheet, second);
    else
        return 0;
    return 1;
}

/* What no helper does to what the rivers share: a list told shorter, a figure put into it, a figure of the table. */
static int shared_change(const char *name, const char *field, size_t first, uint32_t second)
{
    size_t i;
    if (IS("shared_working")) {
        shared.p.length = first;
        shared.y.length = second;
        return 1;
    }
    for (i = 0; IS("shared_length") && i < SIZE(shared_lists); i++)
        if (strcmp(field, shared_lists[i].name) == 0) {
            list_of(&shared, &shared_lists[i])->length = first;
            return 1;
        }
    for (i = 0; IS("shared_put") && i < SIZE(shared_lists); i++)
        if (strcmp(field, shared_lists[i].name) == 0) {
            list_of(&shared, &shared_lists[i])->at[first] = second;
            return 1;
        }
    for (i = 0; IS("slot") && i < SIZE(fields); i++)
        if (strcmp(fields[i].structure, "yumbaqel_slot") == 0 && strcmp(field, fields[i].name) == 0) {
            memcpy((char *)&shared.table.slots[first - 1] + fields[i].offset, &second, sizeof second);
            return 1;
        }
    return 0;
}

/* What no helper does: a list told shorter, a figure put into it, a figure of the struct. */
static int change(const char *name, struct yumbaqel_river *river, const char *field, size_t first, uint32_t second)
{
    if (IS("length"))
        named(river, field)->length = first;
    else if (IS("put"))
        named(river, field)->at[first] = second;
    else if (IS("working")) {
        river->p.length = first;
        river->y.length = second;
    } else if (IS("segments"))
        river->loaded.segments = (uint32_t)first;
    else if (IS("steps"))
        river->loaded.steps = (uint32_t)first;
    else if (IS("done"))
        river->done = (uint32_t)first;
    else if (IS("marks"))
        recorder_marks = (int)first;
    else
        return 0;
    return 1;
}

static size_t read_sheet(const char *name, uint8_t *sheet)
{
    FILE *file = fopen(name, "rb");
    size_t length = file == NULL ? 0 : fread(sheet, 1, YUMBAQEL_LONGEST_SHEET, file);
    if (file == NULL || fclose(file) != 0)
        exit(2);
    return length;
}

int main(int count, char **arguments)
{
    static const uint32_t counts[] = {0, 1, 100000, UINT32_MAX};
    char line[200], name[32], field[32];
    unsigned which;
    unsigned long first, second;
    if (count != 1 + (int)SIZE(sheets))
        return 2;
    for (which = 0; which < SIZE(sheets); which++)
        lengths[which] = read_sheet(arguments[1 + which], sheets[which]);
    print_names();
    printf("version %llu\n", UNSIGNED(yumbaqel_version()));
    printf("most_rivers %llu\n", UNSIGNED(yumbaqel_most_rivers()));
    printf("most_blocks %llu\n", UNSIGNED(yumbaqel_most_blocks()));
    printf("most_bands %llu\n", UNSIGNED(yumbaqel_most_bands()));
    printf("most_steps %llu\n", UNSIGNED(yumbaqel_most_steps()));
    printf("most_horizon %llu\n", UNSIGNED(yumbaqel_most_horizon()));
    for (which = 0; which < SIZE(counts); which++)
        printf("most_off %llu %llu\n", UNSIGNED(counts[which]), UNSIGNED(yumbaqel_most_off(counts[which])));
    fill();
    while (fgets(line, sizeof line, stdin) != NULL) {
        if (sscanf(line, "%31s %u %31s %lu %lu", name, &which, field, &first, &second) != 5)
            return 2;
        printf("%s", line);
        if (!lend(name, &rivers[which], first) && !call(name, &rivers[which], (uint32_t)first, (uint32_t)second)
            && !change(name, &rivers[which], field, first, (uint32_t)second)
            && !shared_call(name, &rivers[which], field, (uint32_t)first, (uint32_t)second)
            && !shared_change(name, field, first, (uint32_t)second))
            return 2;
        for (which = 0; which < SIZE(rivers); which++)
            if (lent[which])
                print_river(&rivers[which]);
        if (shared_lent)
            print_shared();
    }
    return 0;
}

#endif
