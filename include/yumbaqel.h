/*
 * Yumbaqel: the OTIS river inside an intake gate controller, for C99 and C++.
 *
 * Link libyumbaqel.a, which `rt lib` in crates/yumbaqel writes (docs/C.md). Every function below is total: it takes any bytes, figures and
 * lengths, and its outcome is proved to be the one that documents 01 (docs/01-scope.md) and 02 (docs/02-change-requests.md, 1 to 3 and 5 to
 * 7) set out.
 *
 * What the caller owes, for every function:
 *   - each pointer is not null and aligned for what it points at, also where its length is 0;
 *   - a list has as many entries as its length says;
 *   - what a call may write overlaps nothing else that the call is lent;
 *   - nobody else writes what is lent while the call runs.
 *
 * What every call does: what it hands out comes first among its parameters. It writes *number, *kind and *place. An accepted call has
 * number 0, kind 0 and place 0. A refused call has the refusal's number (enum yumbaqel_number) and its place: what kind it is (enum
 * yumbaqel_kind) and which one, from 1; and it writes nothing else, no list, no value. An accepted call writes the values named below
 * and the first entries of the lists named below, one for each segment (reach, row; sixteen segments begun), and leaves what lies behind
 * them. Of the lists that rivers share a start or step writes the river's own stretch, an opening the first entries, those of all open
 * rivers; the rest is left. A forecast writes its copies and nothing of the river.
 *
 * The library keeps nothing between calls, allocates nothing, calls nothing of its caller's, and needs at most YUMBAQEL_STACK bytes of
 * stack. Calls on different lists may run at once.
 */
#ifndef YUMBAQEL_H
#define YUMBAQEL_H

#include <stddef.h>
#include <stdint.h>

#ifdef __cplusplus
extern "C" {
#endif

#define YUMBAQEL_VERSION 30300           /* of this header, 3.3.0: major x 10,000 + minor x 100 + patch */
#define YUMBAQEL_SCALE 1073741824        /* one whole, 2^30 */
#define YUMBAQEL_HIGHEST 1000000000      /* the highest concentration, ng/L */
#define YUMBAQEL_MOST_SEGMENTS 1024
#define YUMBAQEL_MOST_STEPS 100000
#define YUMBAQEL_MOST_HORIZON 100000     /* steps that a forecast looks ahead at most */
#define YUMBAQEL_MOST_REACHES 64
#define YUMBAQEL_MOST_ROWS 256
#define YUMBAQEL_MOST_GAUGES 32
#define YUMBAQEL_MOST_FLOW_ROWS 64
#define YUMBAQEL_MOST_BANDS 32           /* of a reach */
#define YUMBAQEL_MOST_RIVERS 8           /* that share lists */
#define YUMBAQEL_BLOCKS 64               /* highest figures of the longest river, one for each sixteen segments */
#define YUMBAQEL_NO_FLOW 65              /* the number of no flow: a sheet has the flow at the top, 0, and those of its rows, up to 64 */
#define YUMBAQEL_LONGEST_SHEET 48040     /* bytes; of a sheet without bands 6,824 */
#define YUMBAQEL_STACK 8192              /* bytes of stack that any call needs at most, x86-64 */

/*
 * The numbered refusals, in the documents' words. A sheet marked OTR2 has flow rows behind the gauges, and one marked OTR3 behind these for
 * each reach a count of bands, 0 to 32, and the bands; 2 and 4 speak of whichever section is last. 16 is looked at after 9, 19 after 16.
 * Each of 10 to 12 is looked for in the flow at the top and then in that of every flow row, before the next. 13 is also a flow row's number
 * past the rows, and in a step 14 looks at both sets. 17 is looked at after 12, 18 before 13; 13 is also a shared list of fewer than 1,024
 * entries, and fewer highest figures than sixteen segments are begun, at which 14 does not look. 20 is looked at after 14; 13 is also a
 * forecast's sheet with another segment count than the river's.
 */
enum yumbaqel_number {
    YUMBAQEL_ACCEPTED = 0,
    YUMBAQEL_MARK = 1,             /* Fewer than four bytes, or another mark. */
    YUMBAQEL_SHORT_SHEET = 2,      /* The sheet ends before its last gauge is complete. */
    YUMBAQEL_COUNT = 3,            /* A count is outside its range. */
    YUMBAQEL_LONG_SHEET = 4,       /* Bytes follow the last gauge. */
    YUMBAQEL_HEADER = 5,           /* A header field is outside its range. */
    YUMBAQEL_REACH_FIELD = 6,      /* A reach field is outside its range (reach). */
    YUMBAQEL_SEGMENTS = 7,         /* The reaches have more than 1,024 segments. */
    YUMBAQEL_BOUNDARY_ROW = 8,     /* A boundary row breaks its rule on starts, or its concentration is outside its range (row). */
    YUMBAQEL_GAUGE = 9,            /* A gauge breaks its rule (row). */
    YUMBAQEL_FLOW = 10,            /* A flow is below 0 or above 100,000,000 (segment). */
    YUMBAQEL_FACE = 11,            /* Q x dx exceeds AD own + AD below (segment). */
    YUMBAQEL_SUM = 12,             /* T, V or h exceeds one whole (segment). */
    YUMBAQEL_SHORT_LIST = 13,      /* A lent list is shorter than the river (the list of reach records: than the count of reaches), or
                                      the river has no segment or over 1,024, or a report's segment is not in it. */
    YUMBAQEL_FIGURE = 14,          /* A half-step sum (T, V or h) exceeds one whole, the last g is not 0, Kd exceeds 1,000, a
                                      concentration exceeds its limit, or M or the count of steps exceeds 100,000 (segment; nothing
                                      for U, U', M or the count, which are looked at after all segments). */
    YUMBAQEL_STEPS_DONE = 15,      /* M or more steps are done. */
    YUMBAQEL_FLOW_ROW = 16,        /* A flow row breaks its rule (row). */
    YUMBAQEL_NO_ROOM = 17,         /* The number is outside 1 to 8 or already open, or the new river's segments and those of the open
                                      ones exceed 1,024 together. */
    YUMBAQEL_NOT_OPEN = 18,        /* The named river is not open, or in the table handed in open rivers overlap or pass segment 1,024
                                      (an opening tests only the table, a closing 18 alone). */
    YUMBAQEL_BAND = 19,            /* A band is out of range or reversed, two bands overlap or a flow has none (reach). */
    YUMBAQEL_NO_FORECAST = 20      /* The gauge is not on the sheet, or present step plus horizon exceeds M. */
};

/* What the place of a refusal is. */
enum yumbaqel_kind {
    YUMBAQEL_NOTHING = 0,
    YUMBAQEL_REACH = 1,
    YUMBAQEL_SEGMENT = 2,
    YUMBAQEL_ROW = 3               /* a boundary row or, of refusal 9, a gauge, of 16 a flow row */
};

/* A reach record: the sixteen fields of a reach, in the sheet's order and units. Of a reach with bands D, A and AS are its own fields, by
   which its segments do not go. */
struct yumbaqel_reach {
    uint32_t segments;
    uint32_t dispersion;           /* D, cm2/s */
    uint32_t area;                 /* A, cm2 */
    uint32_t area2;                /* AS, cm2 */
    uint32_t alpha;                /* ALPHA; the five rates are in 10^-9 per second */
    uint32_t qin;                  /* mL/s per km */
    uint32_t qout;
    uint32_t cl;                   /* ng/L */
    uint32_t lambda;
    uint32_t lambda2;
    uint32_t lamhat;
    uint32_t lamhat2;
    uint32_t rho;                  /* g/m3 */
    uint32_t kd;                   /* millionths of m3/g */
    uint32_t cb;                   /* ng/L */
    uint32_t start;                /* ng/L */
};

/* What an accepted loading hands out. */
struct yumbaqel_loaded {
    uint32_t steps;                /* M */
    uint32_t interval;             /* the print interval */
    uint32_t segments;
    uint32_t rows_at;              /* where the boundary rows begin on the sheet, in bytes from 0 */
    uint32_t rows;                 /* how many there are */
    uint32_t gauges_at;            /* and the gauges */
    uint32_t gauges;
    uint32_t flow_rows_at;         /* and the flow rows; both are 0 where the sheet has none (OTR1) */
    uint32_t flow_rows;
};

/* What the table of the rivers that share lists has of a number. Where none is open under it, the other four are of no matter. */
struct yumbaqel_slot {
    uint32_t opened;               /* 0: no river is open under the number; anything else: one is */
    uint32_t first;                /* its first segment among those of the shared lists, which count from 0 */
    uint32_t segments;
    uint32_t upstream;             /* of its state U */
    uint32_t steps;                /* and the count of steps done */
};

/* Number r, from 1, has slots[r - 1]. A table of zeros has no river open. */
struct yumbaqel_table {
    struct yumbaqel_slot slots[YUMBAQEL_MOST_RIVERS];
};

/* A length of -1 where the compiler lays them out otherwise than the library. */
typedef char yumbaqel_reach_has_64_bytes[2 * (sizeof(struct yumbaqel_reach) == 64) - 1];
typedef char yumbaqel_loaded_has_36_bytes[2 * (sizeof(struct yumbaqel_loaded) == 36) - 1];
typedef char yumbaqel_table_has_160_bytes[2 * (sizeof(struct yumbaqel_table) == 160) - 1];

/*
 * A loading for one of the sheet's flows: row is 0 for the flow at the top, else the number of a flow row. Tests 1 to 13, 16 and 19 on any
 * bytes and any lists, and 10 to 12 of every flow, whichever row it is handed. Where a reach has bands, each of its segments has A, D and
 * AS of the band that holds its own flow, in 11 and in its half-step numbers. Accepted, it writes *loaded, the first entries of the
 * fourteen lists (that flow's set, which is the ten half-step numbers e to s, then CL, CB, Kd and the start figure), one for each segment,
 * and those of the reach records, one for each reach. All but the set is the same for every flow. Lists of YUMBAQEL_MOST_SEGMENTS and
 * YUMBAQEL_MOST_REACHES entries are long enough for every sheet.
 */
void yumbaqel_load(
    uint32_t *number, uint32_t *kind, uint32_t *place, struct yumbaqel_loaded *loaded,
    const uint8_t *sheet, size_t sheet_length, uint32_t row,
    struct yumbaqel_reach *reaches, size_t reaches_length,
    uint32_t *e, size_t e_length, uint32_t *g, size_t g_length, uint32_t *l, size_t l_length,
    uint32_t *a, size_t a_length, uint32_t *b, size_t b_length, uint32_t *k, size_t k_length,
    uint32_t *ks, size_t ks_length, uint32_t *h, size_t h_length, uint32_t *m, size_t m_length,
    uint32_t *s, size_t s_length, uint32_t *cl, size_t cl_length, uint32_t *cb, size_t cb_length,
    uint32_t *kd, size_t kd_length, uint32_t *start, size_t start_length);

/*
 * A start of n segments. Tests 13 and 14. Accepted, it writes the first n entries of channel, storage and sediment (C, Z and W: the
 * start figure), the first entries of highest (the highest channel figure of each sixteen segments begun, for yumbaqel_search), *upstream
 * (the state's U: u, which is U at step 0) and *done (the state's count of steps: 0). It looks at nothing that it overwrites. Of a sheet's
 * flows any one's set may be lent to it, and so to a report.
 */
void yumbaqel_start(
    uint32_t *number, uint32_t *kind, uint32_t *place,
    uint32_t n,
    const uint32_t *e, size_t e_length, const uint32_t *g, size_t g_length, const uint32_t *l, size_t l_length,
    const uint32_t *a, size_t a_length, const uint32_t *b, size_t b_length, const uint32_t *k, size_t k_length,
    const uint32_t *ks, size_t ks_length, const uint32_t *h, size_t h_length, const uint32_t *m, size_t m_length,
    const uint32_t *s, size_t s_length, const uint32_t *cl, size_t cl_length, const uint32_t *cb, size_t cb_length,
    const uint32_t *kd, size_t kd_length, const uint32_t *start, size_t start_length,
    uint32_t *channel, size_t channel_length, uint32_t *storage, size_t storage_length,
    uint32_t *sediment, size_t sediment_length, uint32_t *highest, size_t highest_length, uint32_t *upstream, uint32_t *done,
    uint32_t u);

/*
 * A step of n segments. Tests 13 to 15; u is U' and steps is M. It is lent two sets: e0 to s0 is that of its old side, the flow in force
 * at step *done, and e to s that of its new side, the flow in force at step *done + 1 (yumbaqel_flow). Where the two are one flow the same
 * lists may be lent twice, as they are only read. Accepted, it writes the first n entries of channel, storage and sediment, the first
 * entries of highest (those of the new figures, whatever stood there), *upstream (u) and *done (one more), and the first n entries of the
 * working lists p and y, whose content is of no matter before and of no use afterwards.
 */
void yumbaqel_step(
    uint32_t *number, uint32_t *kind, uint32_t *place,
    uint32_t n,
    const uint32_t *e0, size_t e0_length, const uint32_t *g0, size_t g0_length, const uint32_t *l0, size_t l0_length,
    const uint32_t *a0, size_t a0_length, const uint32_t *b0, size_t b0_length, const uint32_t *k0, size_t k0_length,
    const uint32_t *ks0, size_t ks0_length, const uint32_t *h0, size_t h0_length, const uint32_t *m0, size_t m0_length,
    const uint32_t *s0, size_t s0_length,
    const uint32_t *e, size_t e_length, const uint32_t *g, size_t g_length, const uint32_t *l, size_t l_length,
    const uint32_t *a, size_t a_length, const uint32_t *b, size_t b_length, const uint32_t *k, size_t k_length,
    const uint32_t *ks, size_t ks_length, const uint32_t *h, size_t h_length, const uint32_t *m, size_t m_length,
    const uint32_t *s, size_t s_length, const uint32_t *cl, size_t cl_length, const uint32_t *cb, size_t cb_length,
    const uint32_t *kd, size_t kd_length, const uint32_t *start, size_t start_length,
    uint32_t *channel, size_t channel_length, uint32_t *storage, size_t storage_length,
    uint32_t *sediment, size_t sediment_length, uint32_t *highest, size_t highest_length, uint32_t *upstream, uint32_t *done,
    uint64_t *p, size_t p_length, uint64_t *y, size_t y_length,
    uint32_t u, uint32_t steps);

/*
 * A report of a segment, which counts from 1. Tests 13 and 14; upstream and done are the state's U and count. Accepted, it writes *c,
 * *z and *kdw: C, Z and Kd x W. It writes no list.
 */
void yumbaqel_report(
    uint32_t *number, uint32_t *kind, uint32_t *place, uint32_t *c, uint32_t *z, uint64_t *kdw,
    uint32_t n,
    const uint32_t *e, size_t e_length, const uint32_t *g, size_t g_length, const uint32_t *l, size_t l_length,
    const uint32_t *a, size_t a_length, const uint32_t *b, size_t b_length, const uint32_t *k, size_t k_length,
    const uint32_t *ks, size_t ks_length, const uint32_t *h, size_t h_length, const uint32_t *m, size_t m_length,
    const uint32_t *s, size_t s_length, const uint32_t *cl, size_t cl_length, const uint32_t *cb, size_t cb_length,
    const uint32_t *kd, size_t kd_length, const uint32_t *start, size_t start_length,
    const uint32_t *channel, size_t channel_length, const uint32_t *storage, size_t storage_length,
    const uint32_t *sediment, size_t sediment_length, uint32_t upstream, uint32_t done,
    uint32_t segment);

/*
 * A search: is any of n segments above the limit, which may be any figure? Tests 13 alone. It looks at the highest figures and then only at
 * the segments of a block of sixteen whose highest figure is above the limit. Accepted, it writes *segment: the number of a segment, from
 * 1, that is above the limit and in such a block, or 0 where there is none. Which one it names, where there are several, is left open. Lent
 * channel and highest as a start or step left them, it says 0 just where no segment is above the limit. It writes no list.
 */
void yumbaqel_search(
    uint32_t *number, uint32_t *kind, uint32_t *place, uint32_t *segment,
    uint32_t n,
    const uint32_t *channel, size_t channel_length, const uint32_t *highest, size_t highest_length,
    uint32_t limit);

/*
 * A forecast of a river of n segments: at which step, from the present one on, is the channel figure of a gauge, by its segment's number,
 * first above the limit, which may be any figure, within so many steps (horizon)? It is lent the sheet, the live river to read (channel,
 * storage, sediment, highest, U and the count of steps done), and lists for copies of it (those that end in 1), for both sides of a step
 * (sides) and for its work (p and y), of any content. U' and the flow of each step are those of the sheet's rows, whatever the river was
 * fed. Tests 1 to 12, 16 and 19 of the sheet as a loading, then 13 of all lists, of n and of the sheet's segment count, which must be n, 14
 * of the live river, and 20; never 15. sides wants 24 x n entries.
 *
 * Accepted, it writes *above: 1 where the gauge is above the limit at step *done1, which is the first such step, or 0 where it is above at
 * none of them, and *done1 is done + horizon. *upstream1 and *done1 are U and the count of the copies. The first n entries of channel1,
 * storage1 and sediment1 are the river's at step *done1. highest1 has the first entries of highest as they are lent, true or not, where
 * *done1 is done, else those of the copies. A horizon of 0 looks at the present step alone. p and y have what the last step left in them,
 * and stay where none was made.
 *
 * sides is cut into 24 parts of sides_length / 24 entries; what lies behind them stays. Afterwards parts 10 to 23 (of 0 to 23) begin with
 * the lists of a loading, e to s, CL, CB, Kd and the start figure, for the flow in force at step *done1, one entry for each segment, behind
 * which they stay; and parts 0 to 9 are those of 10 to 19, whole.
 */
void yumbaqel_forecast(
    uint32_t *number, uint32_t *kind, uint32_t *place, uint32_t *above,
    uint32_t n, const uint8_t *sheet, size_t sheet_length,
    const uint32_t *channel, size_t channel_length, const uint32_t *storage, size_t storage_length,
    const uint32_t *sediment, size_t sediment_length, const uint32_t *highest, size_t highest_length, uint32_t upstream, uint32_t done,
    uint32_t *channel1, size_t channel1_length, uint32_t *storage1, size_t storage1_length,
    uint32_t *sediment1, size_t sediment1_length, uint32_t *highest1, size_t highest1_length, uint32_t *upstream1, uint32_t *done1,
    uint32_t *sides, size_t sides_length, uint64_t *p, size_t p_length, uint64_t *y, size_t y_length,
    uint32_t gauge, uint32_t limit, uint32_t horizon);

/* ---- Several rivers on shared lists. Up to eight are open at once, each under a number from 1 to 8 (river), with its own stretch of
   three shared lists (channel, storage, sediment), of 1,024 segments in all. Their other lists are lent as before, and so are the highest
   figures, a list of each river's own whose blocks count from its own first segment. The caller keeps the table, as the call before left
   it; it begins with no river open. Only 17 and 18 depend on the other rivers. */

/*
 * An opening: a loading, for one of the sheet's flows, and a start in one call; u is U at step 0. Tests 1 to 12, 16 and 19 as a loading,
 * then 17, 18 of the table alone, 13 and 14. Accepted, it writes what a loading writes, the new river's highest figures, the number's slot,
 * and the shared lists: the open rivers' segments come to the front, in their order (the first of their slots follows them), the new
 * river's stand behind them with the start figure, and what lies behind these stays. The others' highest figures stay true.
 */
void yumbaqel_pool_open(
    uint32_t *number, uint32_t *kind, uint32_t *place, struct yumbaqel_loaded *loaded,
    uint32_t river, const uint8_t *sheet, size_t sheet_length, uint32_t row,
    struct yumbaqel_reach *reaches, size_t reaches_length,
    uint32_t *e, size_t e_length, uint32_t *g, size_t g_length, uint32_t *l, size_t l_length,
    uint32_t *a, size_t a_length, uint32_t *b, size_t b_length, uint32_t *k, size_t k_length,
    uint32_t *ks, size_t ks_length, uint32_t *h, size_t h_length, uint32_t *m, size_t m_length,
    uint32_t *s, size_t s_length, uint32_t *cl, size_t cl_length, uint32_t *cb, size_t cb_length,
    uint32_t *kd, size_t kd_length, uint32_t *start, size_t start_length,
    uint32_t *channel, size_t channel_length, uint32_t *storage, size_t storage_length,
    uint32_t *sediment, size_t sediment_length, uint32_t *highest, size_t highest_length, struct yumbaqel_table *table,
    uint32_t u);

/* A start of an open river. Tests 18, 13 and 14. Accepted, it writes the river's stretch of the shared lists, its highest figures, and of
   its slot upstream and steps, as yumbaqel_start writes its lists, *upstream and *done. */
void yumbaqel_pool_start(
    uint32_t *number, uint32_t *kind, uint32_t *place,
    uint32_t river,
    const uint32_t *e, size_t e_length, const uint32_t *g, size_t g_length, const uint32_t *l, size_t l_length,
    const uint32_t *a, size_t a_length, const uint32_t *b, size_t b_length, const uint32_t *k, size_t k_length,
    const uint32_t *ks, size_t ks_length, const uint32_t *h, size_t h_length, const uint32_t *m, size_t m_length,
    const uint32_t *s, size_t s_length, const uint32_t *cl, size_t cl_length, const uint32_t *cb, size_t cb_length,
    const uint32_t *kd, size_t kd_length, const uint32_t *start, size_t start_length,
    uint32_t *channel, size_t channel_length, uint32_t *storage, size_t storage_length,
    uint32_t *sediment, size_t sediment_length, uint32_t *highest, size_t highest_length, struct yumbaqel_table *table,
    uint32_t u);

/* A step of an open river. Tests 18 and 13 to 15. Accepted, it writes the river's stretch of the shared lists, its highest figures, of its
   slot upstream and steps, and the working lists, as yumbaqel_step does. The working lists may be the same for all rivers. */
void yumbaqel_pool_step(
    uint32_t *number, uint32_t *kind, uint32_t *place,
    uint32_t river,
    const uint32_t *e0, size_t e0_length, const uint32_t *g0, size_t g0_length, const uint32_t *l0, size_t l0_length,
    const uint32_t *a0, size_t a0_length, const uint32_t *b0, size_t b0_length, const uint32_t *k0, size_t k0_length,
    const uint32_t *ks0, size_t ks0_length, const uint32_t *h0, size_t h0_length, const uint32_t *m0, size_t m0_length,
    const uint32_t *s0, size_t s0_length,
    const uint32_t *e, size_t e_length, const uint32_t *g, size_t g_length, const uint32_t *l, size_t l_length,
    const uint32_t *a, size_t a_length, const uint32_t *b, size_t b_length, const uint32_t *k, size_t k_length,
    const uint32_t *ks, size_t ks_length, const uint32_t *h, size_t h_length, const uint32_t *m, size_t m_length,
    const uint32_t *s, size_t s_length, const uint32_t *cl, size_t cl_length, const uint32_t *cb, size_t cb_length,
    const uint32_t *kd, size_t kd_length, const uint32_t *start, size_t start_length,
    uint32_t *channel, size_t channel_length, uint32_t *storage, size_t storage_length,
    uint32_t *sediment, size_t sediment_length, uint32_t *highest, size_t highest_length, struct yumbaqel_table *table,
    uint64_t *p, size_t p_length, uint64_t *y, size_t y_length,
    uint32_t u, uint32_t steps);

/* A report of a segment of an open river, which counts from 1 in its own river. Tests 18, 13 and 14. Accepted, it writes *c, *z and
   *kdw. */
void yumbaqel_pool_report(
    uint32_t *number, uint32_t *kind, uint32_t *place, uint32_t *c, uint32_t *z, uint64_t *kdw,
    uint32_t river,
    const uint32_t *e, size_t e_length, const uint32_t *g, size_t g_length, const uint32_t *l, size_t l_length,
    const uint32_t *a, size_t a_length, const uint32_t *b, size_t b_length, const uint32_t *k, size_t k_length,
    const uint32_t *ks, size_t ks_length, const uint32_t *h, size_t h_length, const uint32_t *m, size_t m_length,
    const uint32_t *s, size_t s_length, const uint32_t *cl, size_t cl_length, const uint32_t *cb, size_t cb_length,
    const uint32_t *kd, size_t kd_length, const uint32_t *start, size_t start_length,
    const uint32_t *channel, size_t channel_length, const uint32_t *storage, size_t storage_length,
    const uint32_t *sediment, size_t sediment_length, const struct yumbaqel_table *table,
    uint32_t segment);

/* A search of an open river, as yumbaqel_search of its stretch; segments count from 1 in its own river. Tests 18 and 13. */
void yumbaqel_pool_search(
    uint32_t *number, uint32_t *kind, uint32_t *place, uint32_t *segment,
    uint32_t river,
    const uint32_t *channel, size_t channel_length, const uint32_t *highest, size_t highest_length,
    const struct yumbaqel_table *table,
    uint32_t limit);

/* A forecast of an open river, as yumbaqel_forecast of its stretch; n, U and the count of steps are those of its slot. Tests 1 to 12, 16
   and 19 of the sheet, then 18, 13, 14 and 20; the copies need n entries. It writes nothing of the shared lists and of the table. */
void yumbaqel_pool_forecast(
    uint32_t *number, uint32_t *kind, uint32_t *place, uint32_t *above,
    uint32_t river, const uint8_t *sheet, size_t sheet_length,
    const uint32_t *channel, size_t channel_length, const uint32_t *storage, size_t storage_length,
    const uint32_t *sediment, size_t sediment_length, const uint32_t *highest, size_t highest_length, const struct yumbaqel_table *table,
    uint32_t *channel1, size_t channel1_length, uint32_t *storage1, size_t storage1_length,
    uint32_t *sediment1, size_t sediment1_length, uint32_t *highest1, size_t highest1_length, uint32_t *upstream1, uint32_t *done1,
    uint32_t *sides, size_t sides_length, uint64_t *p, size_t p_length, uint64_t *y, size_t y_length,
    uint32_t gauge, uint32_t limit, uint32_t horizon);

/* Closes a river. Tests 18 alone. Accepted, it writes 0 to its slot's opened; its segments are used again by later openings. */
void yumbaqel_pool_close(uint32_t *number, uint32_t *kind, uint32_t *place, uint32_t river, struct yumbaqel_table *table);

/*
 * U at step j of the boundary rows, for M steps (steps). Tests 3 (the lists have 1 to 256 entries, and as many each) and 8.
 * Accepted, it writes *u.
 */
void yumbaqel_upstream(
    uint32_t *number, uint32_t *kind, uint32_t *place, uint32_t *u,
    const uint32_t *starts, size_t starts_length, const uint32_t *concentrations, size_t concentrations_length,
    uint32_t steps, uint32_t j);

/*
 * The boundary rows of a sheet in two lists, as yumbaqel_upstream takes them. Tests 13 of the two lists and nothing of the sheet, which
 * is one that a loading accepted. Accepted, it writes the lists' first entries, one for each row of the sheet.
 */
void yumbaqel_rows(
    uint32_t *number, uint32_t *kind, uint32_t *place,
    const uint8_t *sheet, size_t sheet_length,
    uint32_t *starts, size_t starts_length, uint32_t *concentrations, size_t concentrations_length);

/* Gauge j of a sheet that a loading accepted: the number of its segment. j counts from 0. Nothing is tested or written. */
uint32_t yumbaqel_gauge(const uint8_t *sheet, size_t sheet_length, size_t j);

/*
 * The number of the flow in force at step j of a sheet that a loading accepted: the last of its flow rows that starts at or before j, or 0,
 * the flow at the top, where none does. Of other bytes too: 0 where the mark is not OTR2 or OTR3, else the last of as many rows as the
 * count says, bytes past the sheet's end counting as 0. Nothing is tested or written.
 */
uint32_t yumbaqel_flow(const uint8_t *sheet, size_t sheet_length, uint32_t j);

/* dt of a sheet in s, and dx in cm. Bytes past the sheet's end count as 0. Nothing is tested or written. */
uint32_t yumbaqel_dt(const uint8_t *sheet, size_t sheet_length);
uint32_t yumbaqel_dx(const uint8_t *sheet, size_t sheet_length);

/*
 * How far a figure may be off the exact river after so many accepted steps since the latest accepted start, which is the state's count of
 * them: 6 x steps, in ng/L for channel and storage (C and Z), and times Kd, in pg/g, for sediment (Kd x W). So the exact river is not above
 * a limit where the figure and this together are not. It is proved of calls that are lent lists as a loading left them, of a step those of
 * its pair of flows, and the state as the call before left it (docs/THEOREM.md). Nothing is tested or written.
 */
uint64_t yumbaqel_most_off(uint32_t steps);

/* The most rivers that share lists, YUMBAQEL_MOST_RIVERS. It is proved that each of them shows the figures that its own calls alone give. */
uint32_t yumbaqel_most_rivers(void);

/* The highest figures of the longest river, YUMBAQEL_BLOCKS. It is proved that a search which is lent channel and highest figures as the
   calls left them says 0 just where no segment is above the limit. */
uint32_t yumbaqel_most_blocks(void);

/* The most bands of a reach, YUMBAQEL_MOST_BANDS. It is proved that bands, one or more, none of them out of range or reversed, pass test 19
   just where every flow from 0 to 100,000,000 is in exactly one of them. */
uint32_t yumbaqel_most_bands(void);

/* The most steps of a sheet, YUMBAQEL_MOST_STEPS. It is proved that after an accepted loading and start no step of the sheet's own river, which
   is lent lists as loadings left them for its pair of flows and handed a U' in range and the sheet's M, is refused up to M. */
uint32_t yumbaqel_most_steps(void);

/* The longest horizon that a forecast accepts, YUMBAQEL_MOST_HORIZON. It is proved that a forecast says what as many steps with the sheet's
   pairs, U' and M, and reports of the gauge, would have said, and that its copies are what these steps would have left. */
uint32_t yumbaqel_most_horizon(void);

/* The library's own version. The header belongs to it where this is YUMBAQEL_VERSION. */
uint32_t yumbaqel_version(void);

/* ---- The same calls on one struct, for a caller who has no wish to hand over thirty lists by hand. */

struct yumbaqel_list {
    uint32_t *at;
    size_t length;
};

struct yumbaqel_wide_list {
    uint64_t *at;
    size_t length;
};

/* A set: the half-step numbers of one flow. */
struct yumbaqel_set {
    struct yumbaqel_list e, g, l, a, b, k, ks, h, m, s;
    uint32_t flow;                 /* the number of the flow that it was loaded for, or YUMBAQEL_NO_FLOW */
};

/* What the calls are lent: the lists of a loading, the state, the highest figures, the working lists, the sheet and its rows; and what a
   loading handed out. */
struct yumbaqel_river {
    struct yumbaqel_set sets[2];   /* where a flow row begins to hold a step needs two; without flow rows the first one serves both sides */
    struct yumbaqel_list cl, cb, kd, start;
    struct yumbaqel_list channel, storage, sediment;
    struct yumbaqel_list highest;  /* the highest channel figure of each sixteen segments begun, which start and step keep true */
    uint32_t upstream, done;
    struct yumbaqel_wide_list p, y;
    struct yumbaqel_loaded loaded;
    const uint8_t *sheet;          /* as loaded; the caller keeps it as it is while rows, gauges, dt, dx or forecasts are asked for and, with
                                      flow rows, as long as the river is stepped: a new sheet is to be read into other memory */
    size_t sheet_length;
    struct yumbaqel_list starts, concentrations;
    uint32_t rows;                 /* how many rows yumbaqel_river_rows has put into these two; 0 before */
    struct yumbaqel_list sides;    /* both sides of a step, for forecasts into this river */
};

/* What the rivers of a pool share: the state lists, working lists, and the table. Each river has a struct of its own beside it, for the
   lists of its opening and its highest figures. */
struct yumbaqel_shared {
    struct yumbaqel_list channel, storage, sediment;
    struct yumbaqel_wide_list p, y;
    struct yumbaqel_table table;
};

struct yumbaqel_refusal {
    uint32_t number, kind, place;
};

struct yumbaqel_figures {
    uint32_t channel, storage;     /* C and Z */
    uint64_t sediment;             /* Kd x W */
};

/* Entries to lend: for the highest figures of this many segments; to a river of so many, to one of a pool (the lists of its loading), for
   its second set, to a copy of one (state and highest figures), to either's working lists; to a copy for forecasts (both sides of a step);
   for this many boundary rows; and for the three lists that rivers share. */
#define YUMBAQEL_HIGHEST_WORDS(segments) (((segments) + 15) / 16)
#define YUMBAQEL_WORDS(segments) (17 * (segments) + YUMBAQEL_HIGHEST_WORDS(segments))
#define YUMBAQEL_LOADING_WORDS(segments) (14 * (segments))
#define YUMBAQEL_SET_WORDS(segments) (10 * (segments))
#define YUMBAQEL_COPY_WORDS(segments) (3 * (segments) + YUMBAQEL_HIGHEST_WORDS(segments))
#define YUMBAQEL_WIDE_WORDS(segments) (2 * (segments))
#define YUMBAQEL_SIDES_WORDS(segments) (24 * (segments))
#define YUMBAQEL_ROW_WORDS(rows) (2 * (rows))
#define YUMBAQEL_SHARED_WORDS 3072

/* Divides words among lists of this length each. */
static inline void yumbaqel_divide(struct yumbaqel_list *const *lists, size_t count, size_t length, uint32_t *words)
{
    size_t i;
    for (i = 0; i < count; i++) {
        lists[i]->at = words + i * length;
        lists[i]->length = length;
    }
}

/* Lends a set YUMBAQEL_SET_WORDS(segments) entries. It is that of no flow yet. */
static inline void yumbaqel_set_lend(struct yumbaqel_set *set, size_t segments, uint32_t *words)
{
    struct yumbaqel_list *const lists[] = {
        &set->e, &set->g, &set->l, &set->a, &set->b, &set->k, &set->ks, &set->h, &set->m, &set->s};
    yumbaqel_divide(lists, sizeof lists / sizeof *lists, segments, words);
    set->flow = YUMBAQEL_NO_FLOW;
}

/* Lends a river YUMBAQEL_HIGHEST_WORDS(segments) entries for its highest figures. No two rivers share them: each start and step writes
   its own river's. */
static inline void yumbaqel_river_lend_highest(struct yumbaqel_river *river, size_t segments, uint32_t *words)
{
    river->highest.at = words;
    river->highest.length = YUMBAQEL_HIGHEST_WORDS(segments);
}

/* Lends a river lists for its state, with the highest figures, which are true of that state alone, and its working lists:
   YUMBAQEL_COPY_WORDS(segments) and YUMBAQEL_WIDE_WORDS(segments) entries. They hold no state yet. */
static inline void yumbaqel_river_lend_state(struct yumbaqel_river *river, size_t segments, uint32_t *words, uint64_t *wide_words)
{
    struct yumbaqel_list *const lists[] = {&river->channel, &river->storage, &river->sediment};
    yumbaqel_divide(lists, sizeof lists / sizeof *lists, segments, words);
    yumbaqel_river_lend_highest(river, segments, words + 3 * segments);
    river->upstream = 0;
    river->done = 0;
    river->p.at = wide_words;
    river->p.length = segments;
    river->y.at = wide_words + segments;
    river->y.length = segments;
}

/* Lends a river YUMBAQEL_ROW_WORDS(rows) entries for the sheet's boundary rows. A river that is handed U from elsewhere needs none. */
static inline void yumbaqel_river_lend_rows(struct yumbaqel_river *river, size_t rows, uint32_t *words)
{
    struct yumbaqel_list *const lists[] = {&river->starts, &river->concentrations};
    yumbaqel_divide(lists, sizeof lists / sizeof *lists, rows, words);
    river->rows = 0;
}

/* Lends a river YUMBAQEL_SET_WORDS(segments) entries for its second set. A river whose sheet has no flow rows needs none. */
static inline void yumbaqel_river_lend_set(struct yumbaqel_river *river, size_t segments, uint32_t *words)
{
    yumbaqel_set_lend(&river->sets[1], segments, words);
}

/* Lends a river YUMBAQEL_SIDES_WORDS(segments) entries for both sides of a step. Only one into which forecasts are made needs them. */
static inline void yumbaqel_river_lend_sides(struct yumbaqel_river *river, size_t segments, uint32_t *words)
{
    river->sides.at = words;
    river->sides.length = YUMBAQEL_SIDES_WORDS(segments);
}

/* Lends a river lists for its loading and none for a state: YUMBAQEL_LOADING_WORDS(segments) entries. It is not loaded yet, and has no
   room for a second set, for rows and for forecasts. */
static inline void yumbaqel_river_lend_loading(struct yumbaqel_river *river, size_t segments, uint32_t *words)
{
    struct yumbaqel_list *const lists[] = {&river->cl, &river->cb, &river->kd, &river->start};
    const struct yumbaqel_loaded none = {0, 0, 0, 0, 0, 0, 0, 0, 0};
    yumbaqel_set_lend(&river->sets[0], segments, words);
    yumbaqel_divide(lists, sizeof lists / sizeof *lists, segments, words + YUMBAQEL_SET_WORDS(segments));
    yumbaqel_river_lend_set(river, 0, words);
    yumbaqel_river_lend_rows(river, 0, words);
    yumbaqel_river_lend_sides(river, 0, words);
    river->loaded = none;
    river->sheet = (const uint8_t *)words;      /* no byte of it: a pointer is never null */
    river->sheet_length = 0;
}

/* Lends a river YUMBAQEL_WORDS(segments) and YUMBAQEL_WIDE_WORDS(segments) entries: room for that many segments. It is not loaded yet,
   and has no room for a second set, for rows and for forecasts. */
static inline void yumbaqel_river_lend(struct yumbaqel_river *river, size_t segments, uint32_t *words, uint64_t *wide_words)
{
    yumbaqel_river_lend_loading(river, segments, words);
    yumbaqel_river_lend_state(river, segments, words + YUMBAQEL_LOADING_WORDS(segments), wide_words);
}

/* As arguments: the ten lists of a set, the four other lists of a loading, those of the state, and all that a forecast writes of a copy. */
#define YUMBAQEL_SET(set)                                                                                               \
    (set)->e.at, (set)->e.length, (set)->g.at, (set)->g.length, (set)->l.at, (set)->l.length,                           \
    (set)->a.at, (set)->a.length, (set)->b.at, (set)->b.length, (set)->k.at, (set)->k.length,                           \
    (set)->ks.at, (set)->ks.length, (set)->h.at, (set)->h.length, (set)->m.at, (set)->m.length, (set)->s.at, (set)->s.length
#define YUMBAQEL_OTHERS(r)                                                                                              \
    (r)->cl.at, (r)->cl.length, (r)->cb.at, (r)->cb.length, (r)->kd.at, (r)->kd.length, (r)->start.at, (r)->start.length
#define YUMBAQEL_FIGURES(r)                                                                                             \
    (r)->channel.at, (r)->channel.length, (r)->storage.at, (r)->storage.length, (r)->sediment.at, (r)->sediment.length
#define YUMBAQEL_COPIES(r)                                                                                              \
    YUMBAQEL_FIGURES(r), (r)->highest.at, (r)->highest.length, &(r)->upstream, &(r)->done,                              \
    (r)->sides.at, (r)->sides.length, (r)->p.at, (r)->p.length, (r)->y.at, (r)->y.length

/* What a river keeps of the sheet that was loaded. */
static inline void yumbaqel_river_keep(struct yumbaqel_river *river, const uint8_t *sheet, size_t sheet_length)
{
    river->sheet = sheet;
    river->sheet_length = sheet_length;
    river->rows = 0;
    river->sets[0].flow = 0;
    river->sets[1].flow = YUMBAQEL_NO_FLOW;
}

/* A loading, for the flow at the top, into the first set. The reach records are the caller's; the river keeps where the sheet is. Its
   rows are to be taken anew, and of a second set nothing stays. */
static inline struct yumbaqel_refusal yumbaqel_river_load(
    struct yumbaqel_river *river, const uint8_t *sheet, size_t sheet_length,
    struct yumbaqel_reach *reaches, size_t reaches_length)
{
    struct yumbaqel_refusal told;
    yumbaqel_load(&told.number, &told.kind, &told.place, &river->loaded,
                  sheet, sheet_length, 0, reaches, reaches_length, YUMBAQEL_SET(&river->sets[0]), YUMBAQEL_OTHERS(river));
    if (told.number == YUMBAQEL_ACCEPTED)
        yumbaqel_river_keep(river, sheet, sheet_length);
    return told;
}

/* The boundary rows of the river's sheet into its two lists: 13 where these are too short. */
static inline struct yumbaqel_refusal yumbaqel_river_rows(struct yumbaqel_river *river)
{
    struct yumbaqel_refusal told;
    yumbaqel_rows(&told.number, &told.kind, &told.place, river->sheet, river->sheet_length,
                  river->starts.at, river->starts.length, river->concentrations.at, river->concentrations.length);
    if (told.number == YUMBAQEL_ACCEPTED)
        river->rows = river->loaded.rows;
    return told;
}

/* U at step j of the river's rows: 3 where they were not taken. Accepted, it writes *u. */
static inline struct yumbaqel_refusal yumbaqel_river_upstream(const struct yumbaqel_river *river, uint32_t j, uint32_t *u)
{
    struct yumbaqel_refusal told;
    yumbaqel_upstream(&told.number, &told.kind, &told.place, u, river->starts.at, river->rows,
                      river->concentrations.at, river->rows, river->loaded.steps, j);
    return told;
}

/* The segment of gauge j of the river's sheet, which counts from 0 to loaded.gauges - 1; of any other j 0, which is no segment. */
static inline uint32_t yumbaqel_river_gauge(const struct yumbaqel_river *river, size_t j)
{
    return j < river->loaded.gauges ? yumbaqel_gauge(river->sheet, river->sheet_length, j) : 0;
}

/* dt of the river's sheet, in s; 0 of a river that is not loaded. */
static inline uint32_t yumbaqel_river_dt(const struct yumbaqel_river *river)
{
    return yumbaqel_dt(river->sheet, river->sheet_length);
}

/* dx, in cm. */
static inline uint32_t yumbaqel_river_dx(const struct yumbaqel_river *river)
{
    return yumbaqel_dx(river->sheet, river->sheet_length);
}

/* The number of the flow in force at step j of the river's sheet; 0 where it has no flow rows. */
static inline uint32_t yumbaqel_river_flow(const struct yumbaqel_river *river, uint32_t j)
{
    return river->loaded.flow_rows != 0 ? yumbaqel_flow(river->sheet, river->sheet_length, j) : 0;
}

/* The river's set of a flow, or NULL where it has none. */
static inline const struct yumbaqel_set *yumbaqel_river_set(const struct yumbaqel_river *river, uint32_t flow)
{
    if (river->sets[0].flow == flow)
        return &river->sets[0];
    return river->sets[1].flow == flow ? &river->sets[1] : NULL;
}

/* Loads the set of a flow of the river's sheet, unless it is there, in place of the set that is not that of the flow to keep. Beside it
   nothing changes: M stays as it is in the river. */
static inline struct yumbaqel_refusal yumbaqel_river_load_flow(
    struct yumbaqel_river *river, uint32_t flow, uint32_t keep, struct yumbaqel_reach *reaches, size_t reaches_length)
{
    struct yumbaqel_refusal told = {0, 0, 0};
    struct yumbaqel_set *const set = river->sets[0].flow == keep ? &river->sets[1] : &river->sets[0];
    struct yumbaqel_loaded loaded;
    if (yumbaqel_river_set(river, flow) != NULL)
        return told;
    yumbaqel_load(&told.number, &told.kind, &told.place, &loaded, river->sheet, river->sheet_length, flow,
                  reaches, reaches_length, YUMBAQEL_SET(set), YUMBAQEL_OTHERS(river));
    if (told.number == YUMBAQEL_ACCEPTED)
        set->flow = flow;
    return told;
}

/* Loads the sets of the river's next step that it has not yet, at any time between two steps. In a run that is each flow row's set, once,
   when it begins to hold; after a start, or with a state from elsewhere, the set of the flow in force too. 13 where a flow row begins to
   hold and the river was lent no second set. Without flow rows it loads nothing. */
static inline struct yumbaqel_refusal yumbaqel_river_sets(
    struct yumbaqel_river *river, struct yumbaqel_reach *reaches, size_t reaches_length)
{
    const uint32_t old_flow = yumbaqel_river_flow(river, river->done), new_flow = yumbaqel_river_flow(river, river->done + 1);
    struct yumbaqel_refusal told = yumbaqel_river_load_flow(river, old_flow, new_flow, reaches, reaches_length);
    if (told.number == YUMBAQEL_ACCEPTED)
        told = yumbaqel_river_load_flow(river, new_flow, old_flow, reaches, reaches_length);
    return told;
}

/* A start of the river as loaded. */
static inline struct yumbaqel_refusal yumbaqel_river_start(struct yumbaqel_river *river, uint32_t u)
{
    struct yumbaqel_refusal told;
    yumbaqel_start(&told.number, &told.kind, &told.place, river->loaded.segments, YUMBAQEL_SET(&river->sets[0]), YUMBAQEL_OTHERS(river),
                   YUMBAQEL_FIGURES(river), river->highest.at, river->highest.length, &river->upstream, &river->done, u);
    return told;
}

/* A step of the river as loaded: 13 where it has not the sets of that step (yumbaqel_river_sets). M is loaded.steps: the sheet's, unless
   the caller puts another figure there. */
static inline struct yumbaqel_refusal yumbaqel_river_step(struct yumbaqel_river *river, uint32_t u)
{
    struct yumbaqel_refusal told = {YUMBAQEL_SHORT_LIST, 0, 0};
    const struct yumbaqel_set *const old_set = yumbaqel_river_set(river, yumbaqel_river_flow(river, river->done));
    const struct yumbaqel_set *const new_set = yumbaqel_river_set(river, yumbaqel_river_flow(river, river->done + 1));
    if (old_set == NULL || new_set == NULL)
        return told;
    yumbaqel_step(&told.number, &told.kind, &told.place, river->loaded.segments,
                  YUMBAQEL_SET(old_set), YUMBAQEL_SET(new_set), YUMBAQEL_OTHERS(river),
                  YUMBAQEL_FIGURES(river), river->highest.at, river->highest.length, &river->upstream, &river->done,
                  river->p.at, river->p.length, river->y.at, river->y.length, u, river->loaded.steps);
    return told;
}

/* A report of a segment of the river, which counts from 1. */
static inline struct yumbaqel_refusal yumbaqel_river_report(
    const struct yumbaqel_river *river, uint32_t segment, struct yumbaqel_figures *figures)
{
    struct yumbaqel_refusal told;
    yumbaqel_report(&told.number, &told.kind, &told.place, &figures->channel, &figures->storage, &figures->sediment,
                    river->loaded.segments, YUMBAQEL_SET(&river->sets[0]), YUMBAQEL_OTHERS(river), YUMBAQEL_FIGURES(river),
                    river->upstream, river->done, segment);
    return told;
}

/* A search of the river: is any of it above the limit? Accepted, it writes *segment: 0 where none is, else the number of a segment that is,
   from 1. */
static inline struct yumbaqel_refusal yumbaqel_river_search(const struct yumbaqel_river *river, uint32_t limit, uint32_t *segment)
{
    struct yumbaqel_refusal told;
    yumbaqel_search(&told.number, &told.kind, &told.place, segment, river->loaded.segments,
                    river->channel.at, river->channel.length, river->highest.at, river->highest.length, limit);
    return told;
}

/* Makes a copy of a loaded river that shares the lists of its loading, its sheet and its rows, which steps only read, and has state,
   highest figures and working lists of its own: YUMBAQEL_COPY_WORDS(segments) and YUMBAQEL_WIDE_WORDS(segments) entries. It has no state
   yet, and no room for forecasts. When the river is loaded anew, its copies are to be made anew. Where the sheet has flow rows the river
   loads its sets while it runs, and a copy is given none: it can hold a state, be searched and take forecasts, and its starts, steps and
   reports are refused 13. A river that is to run beside it is lent lists of its own and loaded from the same sheet. */
static inline void yumbaqel_river_lend_copy(
    struct yumbaqel_river *copy, const struct yumbaqel_river *river, size_t segments, uint32_t *words, uint64_t *wide_words)
{
    *copy = *river;
    yumbaqel_river_lend_state(copy, segments, words, wide_words);
    yumbaqel_river_lend_set(copy, 0, words);
    yumbaqel_river_lend_sides(copy, 0, words);
    if (river->loaded.flow_rows != 0)
        yumbaqel_set_lend(&copy->sets[0], 0, words);
}

/* Copies the state of a river, which is C, Z and W, U and the count of steps, and its highest figures, so that a search of the copy says
   what one of the river would, into the lists of another that is loaded with as many segments. Else, or where a list is shorter than the
   river or the river has no segment or over 1,024, it is refused 13 and writes nothing. */
static inline struct yumbaqel_refusal yumbaqel_river_copy_state(struct yumbaqel_river *to, const struct yumbaqel_river *from)
{
    struct yumbaqel_refusal told = {0, 0, 0};
    const uint32_t n = from->loaded.segments;
    uint32_t i;
    if (n == 0 || n > YUMBAQEL_MOST_SEGMENTS || to->loaded.segments != n
        || from->channel.length < n || from->storage.length < n || from->sediment.length < n
        || to->channel.length < n || to->storage.length < n || to->sediment.length < n
        || from->highest.length < YUMBAQEL_HIGHEST_WORDS(n) || to->highest.length < YUMBAQEL_HIGHEST_WORDS(n)) {
        told.number = YUMBAQEL_SHORT_LIST;
        return told;
    }
    for (i = 0; i < n; i++) {
        to->channel.at[i] = from->channel.at[i];
        to->storage.at[i] = from->storage.at[i];
        to->sediment.at[i] = from->sediment.at[i];
    }
    for (i = 0; i < YUMBAQEL_HIGHEST_WORDS(n); i++)
        to->highest.at[i] = from->highest.at[i];
    to->upstream = from->upstream;
    to->done = from->done;
    return told;
}

/* A forecast of the river into a copy of it, which has its own lists (yumbaqel_river_lend_copy, yumbaqel_river_lend_sides): at which step,
   from the present one on and within so many, is the gauge in this segment first above the limit? Accepted, *above is 1 and the copy stands
   at that step, copy->done; where the gauge is above at none of them, *above is 0 and the copy stands at the last. U and flows are those of
   the river's sheet. The river stays where it is. */
static inline struct yumbaqel_refusal yumbaqel_river_forecast(
    struct yumbaqel_river *copy, const struct yumbaqel_river *river, uint32_t gauge, uint32_t limit, uint32_t horizon, uint32_t *above)
{
    struct yumbaqel_refusal told;
    yumbaqel_forecast(&told.number, &told.kind, &told.place, above, river->loaded.segments, river->sheet, river->sheet_length,
                      YUMBAQEL_FIGURES(river), river->highest.at, river->highest.length, river->upstream, river->done,
                      YUMBAQEL_COPIES(copy), gauge, limit, horizon);
    return told;
}

/* ---- Rivers of a pool. A river's number is the caller's choice, and its struct is handed in beside it, the same at every call. */

/* Lends YUMBAQEL_SHARED_WORDS entries for the shared lists and YUMBAQEL_WIDE_WORDS(YUMBAQEL_MOST_SEGMENTS) for the working lists. No river
   is open. */
static inline void yumbaqel_shared_lend(struct yumbaqel_shared *shared, uint32_t *words, uint64_t *wide_words)
{
    struct yumbaqel_list *const lists[] = {&shared->channel, &shared->storage, &shared->sediment};
    const struct yumbaqel_table none = {{{0, 0, 0, 0, 0}}};
    yumbaqel_divide(lists, sizeof lists / sizeof *lists, YUMBAQEL_MOST_SEGMENTS, words);
    shared->p.at = wide_words;
    shared->p.length = YUMBAQEL_MOST_SEGMENTS;
    shared->y.at = wide_words + YUMBAQEL_MOST_SEGMENTS;
    shared->y.length = YUMBAQEL_MOST_SEGMENTS;
    shared->table = none;
}

/* Lends a river of the pool YUMBAQEL_LOADING_WORDS(segments) entries and, for its highest figures, which are its own,
   YUMBAQEL_HIGHEST_WORDS(segments). A second set and rows are lent as to any river. It has no state but in the shared lists: a start, step,
   report or search of it alone is refused 13. */
static inline void yumbaqel_shared_lend_river(
    const struct yumbaqel_shared *shared, struct yumbaqel_river *river, size_t segments, uint32_t *words, uint32_t *highest_words)
{
    yumbaqel_river_lend_loading(river, segments, words);
    yumbaqel_river_lend_state(river, 0, words, shared->p.at);
    yumbaqel_river_lend_highest(river, segments, highest_words);
}

/* Takes U and the count of steps over from the table into the river's struct, where the sets of its next step go by them. Of a number
   outside 1 to 8 it does nothing. */
static inline void yumbaqel_shared_follow(const struct yumbaqel_shared *shared, uint32_t number, struct yumbaqel_river *river)
{
    if (number < 1 || number > YUMBAQEL_MOST_RIVERS)
        return;
    river->upstream = shared->table.slots[number - 1].upstream;
    river->done = shared->table.slots[number - 1].steps;
}

/* Opens a river under a number, for the flow at the top, with u as U at step 0. The river keeps where the sheet is, as after a loading. */
static inline struct yumbaqel_refusal yumbaqel_shared_open(
    struct yumbaqel_shared *shared, uint32_t number, struct yumbaqel_river *river, const uint8_t *sheet, size_t sheet_length,
    struct yumbaqel_reach *reaches, size_t reaches_length, uint32_t u)
{
    struct yumbaqel_refusal told;
    yumbaqel_pool_open(&told.number, &told.kind, &told.place, &river->loaded, number,
                       sheet, sheet_length, 0, reaches, reaches_length, YUMBAQEL_SET(&river->sets[0]), YUMBAQEL_OTHERS(river),
                       YUMBAQEL_FIGURES(shared), river->highest.at, river->highest.length, &shared->table, u);
    if (told.number == YUMBAQEL_ACCEPTED) {
        yumbaqel_river_keep(river, sheet, sheet_length);
        yumbaqel_shared_follow(shared, number, river);
    }
    return told;
}

/* A start of a river that is open under this number. */
static inline struct yumbaqel_refusal yumbaqel_shared_start(
    struct yumbaqel_shared *shared, uint32_t number, struct yumbaqel_river *river, uint32_t u)
{
    struct yumbaqel_refusal told;
    yumbaqel_pool_start(&told.number, &told.kind, &told.place, number, YUMBAQEL_SET(&river->sets[0]), YUMBAQEL_OTHERS(river),
                        YUMBAQEL_FIGURES(shared), river->highest.at, river->highest.length, &shared->table, u);
    if (told.number == YUMBAQEL_ACCEPTED)
        yumbaqel_shared_follow(shared, number, river);
    return told;
}

/* A step of it. Where the river has not the sets of that step (yumbaqel_river_sets) it is refused 13, before any other test. */
static inline struct yumbaqel_refusal yumbaqel_shared_step(
    struct yumbaqel_shared *shared, uint32_t number, struct yumbaqel_river *river, uint32_t u)
{
    struct yumbaqel_refusal told = {YUMBAQEL_SHORT_LIST, 0, 0};
    const struct yumbaqel_set *const old_set = yumbaqel_river_set(river, yumbaqel_river_flow(river, river->done));
    const struct yumbaqel_set *const new_set = yumbaqel_river_set(river, yumbaqel_river_flow(river, river->done + 1));
    if (old_set == NULL || new_set == NULL)
        return told;
    yumbaqel_pool_step(&told.number, &told.kind, &told.place, number,
                       YUMBAQEL_SET(old_set), YUMBAQEL_SET(new_set), YUMBAQEL_OTHERS(river),
                       YUMBAQEL_FIGURES(shared), river->highest.at, river->highest.length, &shared->table,
                       shared->p.at, shared->p.length, shared->y.at, shared->y.length, u, river->loaded.steps);
    if (told.number == YUMBAQEL_ACCEPTED)
        yumbaqel_shared_follow(shared, number, river);
    return told;
}

/* A report of one of its segments, which counts from 1. */
static inline struct yumbaqel_refusal yumbaqel_shared_report(
    const struct yumbaqel_shared *shared, uint32_t number, const struct yumbaqel_river *river, uint32_t segment,
    struct yumbaqel_figures *figures)
{
    struct yumbaqel_refusal told;
    yumbaqel_pool_report(&told.number, &told.kind, &told.place, &figures->channel, &figures->storage, &figures->sediment,
                         number, YUMBAQEL_SET(&river->sets[0]), YUMBAQEL_OTHERS(river), YUMBAQEL_FIGURES(shared),
                         &shared->table, segment);
    return told;
}

/* A search of it: is any of that river above the limit? */
static inline struct yumbaqel_refusal yumbaqel_shared_search(
    const struct yumbaqel_shared *shared, uint32_t number, const struct yumbaqel_river *river, uint32_t limit, uint32_t *segment)
{
    struct yumbaqel_refusal told;
    yumbaqel_pool_search(&told.number, &told.kind, &told.place, segment, number, shared->channel.at, shared->channel.length,
                         river->highest.at, river->highest.length, &shared->table, limit);
    return told;
}

/* A forecast of it into a copy, as yumbaqel_river_forecast; the copy is made of the river's struct and has lists of its own. */
static inline struct yumbaqel_refusal yumbaqel_shared_forecast(
    const struct yumbaqel_shared *shared, uint32_t number, struct yumbaqel_river *copy, const struct yumbaqel_river *river,
    uint32_t gauge, uint32_t limit, uint32_t horizon, uint32_t *above)
{
    struct yumbaqel_refusal told;
    yumbaqel_pool_forecast(&told.number, &told.kind, &told.place, above, number, river->sheet, river->sheet_length,
                           YUMBAQEL_FIGURES(shared), river->highest.at, river->highest.length, &shared->table,
                           YUMBAQEL_COPIES(copy), gauge, limit, horizon);
    return told;
}

/* Closes the river of this number. Its struct and its number are free for another one. */
static inline struct yumbaqel_refusal yumbaqel_shared_close(struct yumbaqel_shared *shared, uint32_t number)
{
    struct yumbaqel_refusal told;
    yumbaqel_pool_close(&told.number, &told.kind, &told.place, number, &shared->table);
    return told;
}

#ifdef __cplusplus
}
#endif

#endif
