"""Texts of sheets for the tests: a good one, each kind of mistake with its line, and anything at all."""
from __future__ import annotations

import random
from typing import NamedTuple

TEXT = """\
step            10 s
segment length  10 m
steps           6
print every     20 s
flow at top     20 L/s
reach   segments  D     A   AS   ALPHA
unit    -         m2/s  m2  m2   1/s
1       3         0.5   1   0.2  1e-3
2       3         0.5   1   0.2  1e-3
reach   qin      qout     CL    start
unit    mL/s/km  mL/s/km  ug/L  ug/L
all     3000     1000     0.5   1
reach   LAMBDA  LAMBDA2  LAMHAT  LAMHAT2  RHO    Kd    CB
unit    1/s     1/s      1/s     1/s      g/m3   mL/g  ng/L
all     1e-4    2e-4     5e-3    3e-3     1e5    5     70
boundary  from  concentration
unit      s     ug/L
1         0     7
2         20    900
gauge     distance
unit      m
1         10
2         60
"""


FLOW_TEXT = TEXT + """\
flow      from  top
unit      s     L/s
1         10    25
2         40    8
"""

BANDS = """\
band  reach  lowest  highest  A     D     AS
unit  -      L/s     L/s      m2    m2/s  m2
1     1      10      24.999   0.9   0.6   0.18
2     1      25      max      1.4   0.7   0.25
3     1      0       9.999    0.6   0.4   0.09
band  reach  from    A     D     AS
unit  -      m3/s    m2    m2/s  m2
1     2      0.0201  1.1   0.55  0.21
2     2      0       0.8   0.65  0.17
"""
BAND_TEXT = FLOW_TEXT + BANDS


def edited(*edits: tuple[int, str], text: str = TEXT) -> str:
    """The text with lines changed; a line may become several, or none."""
    lines = text.splitlines()
    for number, line in sorted(edits, reverse=True):
        lines[number - 1:number] = line.splitlines()
    return "".join(line + "\n" for line in lines)


def numbered(count: int, row: str) -> str:
    """So many rows; # stands for a row's number, @ for the number before it."""
    return "\n".join(f"{at} {row}".replace("#", str(at)).replace("@", str(at - 1)) for at in range(1, count + 1))


REPORT_NAMES = edited((6, "reach NSEG DISP AREA AREA2 ALPHA"), (10, "reach QLATIN QLATOUT CLATIN start"),
                      (20, "gauge PRTLOC"))
NEAREST = edited((5, "flow at top ~20.0005 L/s"), (12, "all ~0.5 1000 0.5 1"))
ROWS_BY_STEP = ((16, "boundary step concentration"), (17, "unit - ug/L"))
GAUGES_BY_SEGMENT = ((20, "gauge segment"), (21, "unit -"))
BY_LENGTH = ((6, "reach length D A AS ALPHA"), (7, "unit m m2/s m2 m2 1/s"), (8, "1 30 0.5 1 0.2 1e-3"))
OTHER_WAYS = edited((3, "duration 1 min"), (4, "print every 2 steps"), *BY_LENGTH, (9, "2 30 0.5 1 0.2 1e-3"))
FEET = edited((2, "segment length 25 ft"), (5, "flow at top ~0.7 ft3/s"), (6, "reach length D A AS ALPHA"),
              (7, "unit ft ft2/s ft2 ft2 1/s"), (8, "1 75 ~5.5 ~10 ~2 1e-3"), (9, "2 75 ~5.5 ~10 ~2 1e-3"),
              (11, "unit ft3/s/mi ft3/s/mi ug/L ug/L"), (12, "all ~0.17 ~0.05 0.5 1"), (21, "unit ft"),
              (22, "1 25"), (23, "2 150"))


FLOWS_BY_STEP = ((24, "flow step top"), (25, "unit - m3/s"), (26, "1 1 0.025"), (27, "2 4 0.008"))
OTHER_FLOWS = edited(*FLOWS_BY_STEP, text=FLOW_TEXT)
FIRST_BY_FROM = ((28, "band reach from A D AS"), (29, "unit - L/s m2 m2/s m2"), (30, "1 1 10 0.9 0.6 0.18"),
                 (31, "2 1 25 1.4 0.7 0.25"), (32, "3 1 0 0.6 0.4 0.09"))
SECOND_BY_LIMITS = ((33, "band reach lowest highest A D AS"), (34, "unit - mL/s mL/s cm2 cm2/s cm2"),
                    (35, "1 2 20100 MAX 11000 5500 2100"), (36, "2 2 0 20099 8000 6500 1700"))
OTHER_BANDS = {
    "from": edited(*FIRST_BY_FROM, text=BAND_TEXT),
    "lowest and highest": edited(*SECOND_BY_LIMITS, text=BAND_TEXT),
    "100,000,000": edited((31, "2 1 25 100000 1.4 0.7 0.25"), text=BAND_TEXT),
    "rows in another order": edited((30, "3 1 0 9.999 0.6 0.4 0.09"), (32, "1 1 10 24.999 0.9 0.6 0.18"), text=BAND_TEXT),
    "two forms in a reach": edited((30, "1 1 10 24.999 0.9 0.6 0.18\n3 1 0 9.999 0.6 0.4 0.09"), (31, ""), (32, ""),
                                   (36, "2 2 0 0.8 0.65 0.17\n2 1 0.025 1.4 0.7 0.25"), text=BAND_TEXT),
    "columns in two tables": edited((28, "band reach lowest A D AS"), (29, "unit - L/s m2 m2/s m2"), (30, "1 1 10 0.9 0.6 0.18"),
                                    (31, "2 1 25 1.4 0.7 0.25"), (32, "3 1 0 0.6 0.4 0.09\nband highest reach\nunit m3/s -\n"
                                                                      "1 0.024999 1\n2 max 1\n3 0.009999 1"), text=BAND_TEXT),
}
ALL_BANDS = TEXT + "band reach from A D AS\nunit - L/s m2 m2/s m2\n1 all 0 0.9 0.6 0.18\n2 all 20.1 1.4 0.7 0.25\n"
NO_BANDS = TEXT + "band reach from A D AS\nunit - L/s m2 m2/s m2\n"
FEET_BANDS = TEXT + "band reach from A D AS\nunit - ft3/s m2 m2/s m2\n1 1 0 0.9 0.6 0.18\n2 1 ~0.71 1.4 0.7 0.25\n"


class Mistaken(NamedTuple):
    """A text with a mistake: its line, the test that refuses it (0 for the text itself), and words about it."""

    text: str
    line: int
    number: int
    words: str


def mistaken(line: int, number: int, words: str, *edits: tuple[int, str]) -> Mistaken:
    return Mistaken(edited(*edits), line, number, words)


def with_flows(line: int, number: int, words: str, *edits: tuple[int, str]) -> Mistaken:
    return Mistaken(edited(*edits, text=FLOW_TEXT), line, number, words)


def with_bands(line: int, number: int, words: str, *edits: tuple[int, str]) -> Mistaken:
    return Mistaken(edited(*edits, text=BAND_TEXT), line, number, words)


MISTAKES = (
    # lines of the header
    mistaken(2, 0, "did you mean 'segment length'?", (2, "segment lenght  10 m")),
    mistaken(3, 0, "'zeit' is not known; known are step,", (3, "zeit 6")),
    mistaken(4, 0, "steps is given a second time; line 3", (3, "steps 6\nsteps 7")),
    mistaken(4, 0, "given a second time; line 3", (3, "steps 6\nduration 60 s")),
    mistaken(22, 0, "no line 'flow at top'", (5, "")),
    mistaken(22, 0, "no line 'steps' or 'duration'", (3, "")),
    mistaken(1, 0, "'step' wants a unit after the figure: one of s, min, h, d", (1, "step 10")),
    mistaken(1, 0, "'mg/L' is not a unit of time", (1, "step 10 mg/L")),
    mistaken(1, 0, "comes one figure and its unit", (1, "step 10 s ago")),
    mistaken(1, 0, "comes one figure and its unit", (1, "step")),
    mistaken(3, 0, "is a count and has no unit", (3, "steps 6 h")),
    Mistaken("", 1, 0, "no line 'step'"),
    # figures
    mistaken(3, 0, "has a comma", (3, "steps 1,000")),
    mistaken(5, 0, "has a sign", (5, "flow at top -20 L/s")),
    mistaken(5, 0, "'twenty' is not a number", (5, "flow at top twenty L/s")),
    mistaken(5, 0, "is not a number", (5, "flow at top 1e400 L/s")),
    mistaken(5, 0, "that is 20000.5 mL/s: not a whole number. Write ~20.0005 L/s", (5, "flow at top 20.0005 L/s")),
    mistaken(5, 0, "a field holds at most 4,294,967,295 mL/s (about 4294.96729 m3/s); "
             "document 01 allows 0 to 100,000,000 mL/s (0 to 100 m3/s)", (5, "flow at top 5000 m3/s")),
    mistaken(3, 0, "that is 5.5 steps of 10 s: not a whole number", (3, "duration 55 s")),
    mistaken(4, 0, "that is 0.7 steps of 10 s", (4, "print every 7 s")),
    mistaken(4, 0, "print every is 20 s, counted in steps of 0 s", (1, "step 0 s")),
    mistaken(9, 0, "D of reach 2 is 0.50001 m2/s, that is 5000.1 cm2/s: not a whole number. "
             "Write ~0.50001 m2/s to take the nearest, 5,000 cm2/s (0.5 m2/s)", (9, "2 3 0.50001 1 0.2 1e-3")),
    mistaken(12, 0, "qin of every reach is 0.5 mL/s/km, that is 0.5 mL/s/km: not a whole number. "
             "Write ~0.5 mL/s/km to take the nearest, 1 mL/s/km", (12, "all 0.5 0 0 0")),
    mistaken(2, 0, "segment length is 33 ft, that is 1005.84 cm (1 ft is 30.48 cm): not a whole number. "
             "Write ~33 ft to take the nearest, 1,006 cm (about 33.0052493 ft)", (2, "segment length 33 ft")),
    mistaken(9, 0, "that is about 4.62962963 1e-9/s: not a whole number", (7, "unit - m2/s m2 m2 1/d"),
             (8, "1 3 0.5 1 0.2 86.4"), (9, "2 3 0.5 1 0.2 4e-4")),
    mistaken(22, 0, "distance of gauge 1 is 100 ft, that is 3.048 segments of 10 m: not a whole number. "
             "Write ~100 ft to take the nearest, 3 (about 98.4251969 ft)", (21, "unit ft"), (22, "1 100")),
    mistaken(22, 0, "that is 1.2 segments of 10 m", (22, "1 12")),
    mistaken(19, 0, "from of boundary 2 is 25 s, that is 2.5 steps of 10 s", (19, "2 25 900")),
    mistaken(18, 0, "a field holds at most 4,294,967,295 ng/L", (17, "unit s g/L")),
    # tables
    mistaken(6, 0, "no column 'gamma'", (6, "reach segments D A AS gamma")),
    mistaken(6, 0, "did you mean 'LAMBDA'?", (6, "reach segments D A AS LAMDA")),
    mistaken(6, 0, "gives segments in two columns", (6, "reach segments D A AS length")),
    mistaken(6, 0, "has no columns", (6, "reach")),
    mistaken(7, 0, "wants its units before its rows", (7, "")),
    mistaken(7, 0, "4 units for the 5 columns of line 6", (7, "unit - m2/s m2 m2")),
    mistaken(7, 0, "column ALPHA: 'm2' is not a unit of a rate", (7, "unit - m2/s m2 m2 m2")),
    mistaken(8, 0, "4 figures for the 5 columns of line 6", (8, "1 3 0.5 1 0.2")),
    mistaken(8, 0, "ALPHA of reach 1: 'x' is not a number", (8, "1 3 0.5 1 0.2 x")),
    mistaken(9, 0, "reach 3 comes where reach 2 is missing", (9, "3 3 0.5 1 0.2 1e-3")),
    mistaken(9, 0, "segments of reach 1 is given a second time; line 8", (9, "1 3 0.5 1 0.2 1e-3")),
    mistaken(9, 0, "reach 2 has no qin, qout, CL, start", (12, "1 3000 1000 0.5 1")),
    mistaken(13, 0, "given a second time; line 12 has it for every reach", (12, "all 3000 0 0 0\n1 3000 0 0 0")),
    mistaken(21, 0, "no row numbered 1 for 'reach'", (8, ""), (9, "")),
    mistaken(18, 0, "'all' is for reaches", (17, "unit s ug/L\nall 0 7")),
    mistaken(4, 0, "row 1 belongs to no table", (3, "steps 6\n1 2 3")),
    mistaken(4, 0, "right below the head of a table", (3, "steps 6\nunit s")),
    mistaken(21, 0, "the gauge table of line 20 has no units and no rows", (20, "gauge distance\nstep 10 s")),
    mistaken(19, 0, "no table for 'gauge'", (20, ""), (21, ""), (22, ""), (23, "")),
    # what document 01 refuses
    mistaken(72, 3, "the count of reaches is 65; document 01 allows 1 to 64 reaches",
             (8, numbered(65, "1 0.5 1 0.2 1e-3")), (9, "")),
    mistaken(274, 3, "the count of boundary rows is 257; document 01 allows 1 to 256 boundary rows",
             *ROWS_BY_STEP, (18, numbered(257, "@ 7")), (19, "")),
    mistaken(54, 3, "the count of gauges is 33; document 01 allows 1 to 32 gauges",
             *GAUGES_BY_SEGMENT, (22, numbered(33, "#")), (23, "")),
    mistaken(1, 5, "the step dt is 7,200 s; document 01 allows 1 to 3,600 s (refused 5)",
             (1, "step 7200 s"), (4, "print every 1"), *ROWS_BY_STEP, (19, "2 2 900")),
    mistaken(1, 5, "the step dt is 7,200 s (2 h); document 01 allows 1 to 3,600 s (about 0.000277777778 to 1 h)",
             (1, "step 2 h"), (4, "print every 1"), *ROWS_BY_STEP, (19, "2 2 900")),
    mistaken(2, 5, "the segment length dx is 10,100 cm (101 m); document 01 allows 10 to 10,000 cm (0.1 to 100 m)",
             (2, "segment length 101 m"), *GAUGES_BY_SEGMENT, (22, "1 1"), (23, "2 6")),
    mistaken(2, 5, "the segment length dx is 10,668 cm (350 ft); "
             "document 01 allows 10 to 10,000 cm (about 0.32808399 to 328.083989 ft)",
             (2, "segment length 350 ft"), *GAUGES_BY_SEGMENT, (22, "1 1"), (23, "2 6")),
    mistaken(3, 5, "the count of steps M is 100,001; document 01 allows 1 to 100,000 (refused 5)",
             (3, "steps 100001")),
    mistaken(3, 5, "the count of steps M is 108,000 (300 h); "
             "document 01 allows 1 to 100,000 (about 0.00277777778 to 277.777777 h)", (3, "duration 300 h")),
    mistaken(4, 5, "the print interval is 7; document 01 allows 1 to 6; M is 6", (4, "print every 7")),
    mistaken(4, 5, "the print interval is 7 (70 s); document 01 allows 1 to 6 (10 to 60 s); M is 6",
             (4, "print every 70 s")),
    mistaken(5, 5, "document 01 allows 0 to 100,000,000 mL/s (0 to 100 m3/s)", (5, "flow at top 101 m3/s")),
    mistaken(5, 5, "document 01 allows 0 to 100,000,000 mL/s (about 0 to 3531.46667 ft3/s)",
             (5, "flow at top ~4000 ft3/s")),
    mistaken(9, 6, "channel area A of reach 2 is 1,010,000 cm2 (101 m2); "
             "document 01 allows 1 to 1,000,000 cm2 (0.0001 to 100 m2)", (9, "2 3 0.5 101 0.2 1e-3")),
    mistaken(15, 6, "Kd of reach 1 is 1,001 mL/g; document 01 allows 0 to 1,000 mL/g (refused 6)",
             (15, "all 1e-4 2e-4 5e-3 3e-3 1e5 1001 70")),
    mistaken(9, 7, "1,025 segments together; document 01 allows 1,024: take", (9, "2 1022 0.5 1 0.2 1e-3")),
    mistaken(9, 7, "1,025 segments together (10250 m); document 01 allows 1,024 (10240 m): take", *BY_LENGTH,
             (9, "2 10220 0.5 1 0.2 1e-3")),
    mistaken(18, 8, "row 1 starts at step 1 (10 s); the first row starts at step 0", (18, "1 10 7")),
    mistaken(20, 8, "row 3 starts at step 2 (20 s), which is not after row 2, at step 2 (20 s)",
             (19, "2 20 900\n3 20 800")),
    mistaken(19, 8, "row 2 starts at step 7 (70 s), after the last step, 6 (60 s)", (19, "2 70 900")),
    mistaken(19, 8, "row 2 starts at step 7, after the last step, 6;", *ROWS_BY_STEP, (19, "2 7 900")),
    mistaken(19, 8, "the concentration of boundary row 2 is 1,001,000,000 ng/L (1001 mg/L); "
             "document 01 allows 0 to 1,000,000,000 ng/L (0 to 1000 mg/L)",
             (17, "unit s mg/L"), (19, "2 20 1001")),
    mistaken(23, 9, "gauge 2 stands in segment 7 (70 m); the river has segments 1 to 6 (10 to 60 m)",
             (23, "2 70")),
    mistaken(23, 9, "gauge 2 stands in segment 7; the river has segments 1 to 6 (refused 9)", *GAUGES_BY_SEGMENT,
             (22, "1 1"), (23, "2 7")),
    mistaken(23, 9, "gauge 2 stands in segment 1 (10 m), which is not below gauge 1, in segment 1 (10 m)",
             (23, "2 10")),
    mistaken(8, 10, "in segment 2 (reach 1) the flow is -25,000 mL/s (-25 L/s)", (12, "all 0 3e6 0.5 1")),
    mistaken(8, 10, "or raise the flow at the top by 145,000 mL/s (145 L/s)", (12, "all 0 3e6 0.5 1")),
    mistaken(8, 10, "in segment 1 (reach 1) the flow is -5 mL/s (-0.005 L/s); the outflow qout down to there takes more",
             (5, "flow at top 0 L/s"), (12, "all 0 1000 0.5 1")),
    mistaken(8, 10, "a flow is at most 100,000,000 mL/s (100000 L/s): lower qin down to there, or the flow at the top "
             "by 55,000 mL/s (55 L/s)", (5, "flow at top 1e5 L/s"), (12, "all 1e6 0 0.5 1")),
    mistaken(9, 11, "in segment 4 (reach 2) Q × dx, 20,070 × 1,000 = 20,070,000 cm4/s", (9, "2 3 0 1 0.2 1e-3")),
    mistaken(9, 11, "a dispersion D of at least 1,004 cm2/s (0.1004 m2/s) in reach 2", (9, "2 3 0 1 0.2 1e-3")),
    mistaken(9, 11, "segments of at most 498 cm (4.98 m) or a dispersion", (9, "2 3 0.05 1 0.2 1e-3")),
    mistaken(9, 12, "in segment 4 (reach 2) T is 1.", (9, "2 3 0.5 1 0.2 0.3")),
    mistaken(9, 12, "with a step of at most 1 s (about 0.0166666666 min) the whole river passes",
             (1, "step ~0.1666667 min"), (9, "2 3 0.5 1 0.2 0.3")),
    # flow rows
    mistaken(5, 0, "'flow at' is not known; did you mean 'flow at top'?", (5, "flow at 20 L/s")),
    with_flows(24, 0, "the flow table has no column 'concentration'; known are step, from, top",
               (24, "flow from concentration")),
    with_flows(24, 0, "after 'flow' come some of step, from, top", (24, "flow")),
    with_flows(25, 0, "column top: 'ng/L' is not a unit of flow", (25, "unit s ng/L")),
    with_flows(26, 0, "'all' is for reaches; a flow row has its number", (26, "all 10 25")),
    with_flows(25, 0, "no row numbered 1 for 'flow'", (26, ""), (27, "")),
    with_flows(26, 0, "flow 1 has no top_flow", (24, "flow from"), (25, "unit s"), (26, "1 10"), (27, "2 40")),
    with_flows(27, 0, "from of flow 2 is 45 s, that is 4.5 steps of 10 s: not a whole number", (27, "2 45 8")),
    with_flows(26, 0, "top of flow 1 is 5e6 L/s: a field holds at most 4,294,967,295 mL/s (about 4294967.29 L/s); "
               "document 01 allows 0 to 100,000,000 mL/s (0 to 100000 L/s)", (26, "1 10 5e6")),
    with_flows(90, 3, "the count of flow rows is 65; document 02 allows 1 to 64 flow rows",
               *FLOWS_BY_STEP[:2], (26, numbered(65, "# 0.025")), (27, "")),
    with_flows(26, 16, "flow row 1 starts at step 0 (0 s); a flow row starts at step 1 at the earliest",
               (26, "1 0 25")),
    with_flows(26, 16, "flow row 1 starts at step 0; a flow row", *FLOWS_BY_STEP[:2], (26, "1 0 1"), (27, "2 4 0")),
    with_flows(27, 16, "flow row 2 starts at step 1 (10 s), which is not after flow row 1, at step 1 (10 s)",
               (27, "2 10 8")),
    with_flows(27, 16, "flow row 2 starts at step 7 (70 s), after the last step, 6 (60 s)", (27, "2 70 8")),
    with_flows(26, 16, "the top flow of flow row 1 is 101,000,000 mL/s (101 m3/s); "
               "document 01 allows 0 to 100,000,000 mL/s (0 to 100 m3/s)", (25, "unit s m3/s"), (26, "1 10 101"),
               (27, "2 40 0.008")),
    with_flows(27, 10, "with flow row 2, from step 4 (0.0111111 h) on, in segment 3 (reach 1) the flow is -5 mL/s "
               "(-0.005 L/s)", (12, "all 0 1000 0.5 1"), (27, "2 40 0.02")),
    with_flows(27, 10, "or raise the top flow of flow row 2 by 35 mL/s (0.035 L/s)", (12, "all 0 1000 0.5 1"),
               (27, "2 40 0.02")),
    with_flows(26, 10, "or the top flow of flow row 1 by 110 mL/s (0.11 L/s)", (26, "1 10 1e5")),
    with_flows(26, 11, "with flow row 1, from step 1 (0.00277778 h) on, in segment 1 (reach 1) Q × dx, "
               "101,010 × 1,000", (26, "1 10 101")),
    with_flows(9, 11, "in segment 4 (reach 2) Q × dx, 20,070 × 1,000", (9, "2 3 0 1 0.2 1e-3")),
    # bands
    with_bands(28, 0, "after 'band' come some of reach, from, lowest, highest, A, D, AS", (28, "band")),
    with_bands(28, 0, "no column 'width'; known are reach, from,", (28, "band reach lowest highest width D AS")),
    with_bands(28, 0, "the band table has no column 'reach': each band has its reach's number there, or 'all'",
               (28, "band lowest highest A D AS")),
    with_bands(29, 0, "column highest: 'm2' is not a unit of flow", (29, "unit - L/s m2 m2 m2/s m2")),
    with_bands(30, 0, "'all' is for reaches; a band row has its number", (30, "all 1 10 24.999 0.9 0.6 0.18")),
    with_bands(30, 0, "'upper' is not a reach: a band has its reach's number there, or 'all'",
               (30, "1 upper 10 24.999 0.9 0.6 0.18")),
    with_bands(35, 0, "reach 3 has bands here and no row in a reach table: the text has reaches 1 to 2",
               (35, "1 3 0.0201 1.1 0.55 0.21"), (36, "2 3 0 0.8 0.65 0.17")),
    with_bands(36, 0, "reach 0 has bands here and no row in a reach table", (36, "1 0 0 0.8 0.65 0.17")),
    with_bands(32, 0, "band 4 of reach 1 comes where band 3 of reach 1 is missing: rows are numbered 1, 2, 3",
               (32, "4 1 0 9.999 0.6 0.4 0.09")),
    with_bands(31, 0, "lowest of band 1 of reach 1 is given a second time; line 30 has it already",
               (31, "1 1 25 max 1.4 0.7 0.25")),
    with_bands(30, 0, "reach 1 has bands of its own here; line 35 has bands for every reach",
               (35, "1 all 0.0201 1.1 0.55 0.21"), (36, "2 all 0 0.8 0.65 0.17")),
    with_bands(35, 0, "from of band 1 of every reach: 'x' is not a number", (35, "1 all x 1.1 0.55 0.21")),
    with_bands(30, 0, "band 1 of reach 1 has no highest: no field may be missing; 'from' may stand for lowest and highest",
               (28, "band reach lowest A D AS"), (29, "unit - L/s m2 m2/s m2"), (30, "1 1 10 0.9 0.6 0.18"),
               (31, "2 1 25 1.4 0.7 0.25"), (32, "3 1 0 0.6 0.4 0.09")),
    with_bands(35, 0, "band 1 of reach 2 has no D, AS: no field may be missing", (33, "band reach from A"), (34, "unit - m3/s m2"),
               (35, "1 2 0.0201 1.1"), (36, "2 2 0 0.8")),
    with_bands(35, 0, "band 1 of reach 2 has 'from' and a lowest or highest flow too: 'from' stands alone",
               (33, "band reach from highest A D AS"), (34, "unit - m3/s m3/s m2 m2/s m2"),
               (35, "1 2 0.0201 max 1.1 0.55 0.21"), (36, "2 2 0 0.0200 0.8 0.65 0.17")),
    with_bands(31, 0, "lowest of band 2 of reach 1: 'max' is not a number", (31, "2 1 max max 1.4 0.7 0.25")),
    with_bands(32, 0, "highest of band 3 of reach 1 is 9.9995 L/s, that is 9999.5 mL/s: not a whole number. "
               "Write ~9.9995 L/s to take the nearest, 10,000 mL/s (10 L/s)", (32, "3 1 0 9.9995 0.6 0.4 0.09")),
    with_bands(35, 0, "from of band 1 of reach 2 is 5000 m3/s: a field holds at most 4,294,967,295 mL/s (about 4294.96729 m3/s); "
               "document 01 allows 0 to 100,000,000 mL/s (0 to 100 m3/s)", (35, "1 2 5000 1.1 0.55 0.21")),
    with_bands(62, 3, "the count of bands of reach 1 is 33; document 02 allows 0 to 32 bands",
               (30, numbered(33, "1 # # 0.9 0.6 0.18")), (31, ""), (32, "")),
    with_bands(67, 3, "the count of bands of reach 2 is 33; document 02 allows 0 to 32 bands",
               (35, numbered(33, "2 # 1.1 0.55 0.21")), (36, "")),
    with_bands(31, 19, "lowest flow of band 2 of reach 1 is 200,000,000 mL/s (200000 L/s); "
               "document 01 allows 0 to 100,000,000 mL/s (0 to 100000 L/s) (refused 19)", (31, "2 1 2e5 max 1.4 0.7 0.25")),
    with_bands(35, 19, "lowest flow of band 1 of reach 2 is 101,000,000 mL/s (101 m3/s)", (35, "1 2 101 1.1 0.55 0.21")),
    with_bands(31, 19, "highest flow of band 2 of reach 1 is 100,001,000 mL/s (100001 L/s); document 01 allows 0 to",
               (31, "2 1 25 100001 1.4 0.7 0.25")),
    with_bands(31, 19, "channel area A of band 2 of reach 1 is 0 cm2 (0 m2); document 01 allows 1 to 1,000,000 cm2",
               (31, "2 1 25 max 0 0.7 0.25")),
    with_bands(36, 19, "dispersion D of band 2 of reach 2 is 1,010,000 cm2/s (101 m2/s); document 01 allows 0 to 1,000,000 cm2/s",
               (36, "2 2 0 0.8 101 0.17")),
    with_bands(36, 19, "storage area AS of band 2 of reach 2 is 0 cm2", (36, "2 2 0 0.8 0.65 0")),
    with_bands(30, 19, "the highest flow of band 1 of reach 1, 10,000 mL/s (10 L/s), is below its lowest, 24,999 mL/s (24.999 L/s); "
               "the lowest flow of a band is at most the highest: exchange them", (30, "1 1 24.999 10 0.9 0.6 0.18")),
    with_bands(31, 19, "bands 1 and 2 of reach 1 both hold 25,000 mL/s (25 L/s): they go from 10,000 to 25,000 mL/s (10 to 25 L/s) "
               "and 25,000 to 100,000,000 mL/s (25 to 100000 L/s); no flow is in two bands, and both limits belong to a band: "
               "end band 1 at 24,999 mL/s (24.999 L/s) or begin band 2 at 25,001 mL/s (25.001 L/s) or give 'from' alone in the text",
               (30, "1 1 10 25 0.9 0.6 0.18")),
    with_bands(32, 19, "bands 1 and 3 of reach 1 both hold 10,000 to 12,000 mL/s (10 to 12 L/s): they go from",
               (32, "3 1 0 12 0.6 0.4 0.09")),
    with_bands(32, 19, ": end band 3 at 9,999 mL/s (9.999 L/s) or begin band 1 at 12,001 mL/s (12.001 L/s) or give",
               (32, "3 1 0 12 0.6 0.4 0.09")),
    with_bands(31, 19, "bands 1 and 2 of reach 1 both hold 25,000 to 100,000,000 mL/s (25 to 100000 L/s)",
               (30, "1 1 10 max 0.9 0.6 0.18")),
    with_bands(31, 19, "to a band: end band 1 at 24,999 mL/s (24.999 L/s) or give", (30, "1 1 10 max 0.9 0.6 0.18")),
    with_bands(32, 19, "bands 2 and 3 of reach 1 both hold 0 to 9,999 mL/s (0 to 9.999 L/s)", (31, "2 1 0 max 1.4 0.7 0.25")),
    with_bands(32, 19, "to a band: begin band 2 at 10,000 mL/s (10 L/s) or give", (31, "2 1 0 max 1.4 0.7 0.25")),
    with_bands(32, 19, "bands 1, 2 and 3 of reach 1 all hold 0 to 30,000 mL/s (0 to 30 L/s): they go from 0 to 30,000 mL/s "
               "(0 to 30 L/s), 0 to 100,000,000 mL/s (0 to 100000 L/s) and 0 to 30,000 mL/s (0 to 30 L/s); no flow is in two bands, "
               "and both limits belong to a band: take out all but one of them, or move their limits (refused 19)",
               (30, "1 1 0 30 0.9 0.6 0.18"), (31, "2 1 0 max 1.4 0.7 0.25"), (32, "3 1 0 30 0.6 0.4 0.09")),
    with_bands(32, 19, "no band of reach 1 holds 0 to 999 mL/s (0 to 0.999 L/s); bands hold every flow from 0 to 100,000,000 mL/s: "
               "begin band 3 at 0 mL/s (0 L/s) (refused 19)", (32, "3 1 1 9.999 0.6 0.4 0.09")),
    with_bands(30, 19, "no band of reach 1 holds 24,000 to 24,999 mL/s (24 to 24.999 L/s); bands hold every flow from 0 to "
               "100,000,000 mL/s: end band 1 at 24,999 mL/s (24.999 L/s) or begin band 2 at 24,000 mL/s (24 L/s) or give 'from' alone",
               (30, "1 1 10 23.999 0.9 0.6 0.18")),
    with_bands(32, 19, "no band of reach 1 holds 9,999 mL/s (9.999 L/s); bands", (32, "3 1 0 9.998 0.6 0.4 0.09")),
    with_bands(31, 19, "no band of reach 1 holds 30,001 to 100,000,000 mL/s (30.001 to 100000 L/s); bands hold every flow from 0 to "
               "100,000,000 mL/s: end band 2 at 100,000,000 mL/s (100000 L/s) or write 'max' in the text", (31, "2 1 25 30 1.4 0.7 0.25")),
    with_bands(36, 19, "no band of reach 2 holds 0 to 99 mL/s (0 to 0.000099 m3/s); bands hold every flow from 0 to 100,000,000 mL/s: "
               "begin band 2 at 0 mL/s (0 m3/s) (refused 19)", (36, "2 2 0.0001 0.8 0.65 0.17")),
    with_bands(36, 19, "bands 1 and 2 of reach 2 both hold 0 to 100,000,000 mL/s (0 to 100 m3/s): they go from 0 to 100,000,000 mL/s "
               "(0 to 100 m3/s) and 0 to 100,000,000 mL/s (0 to 100 m3/s); no flow is in two bands, and both limits belong to a band: "
               "take out all but one of them, or move their limits", (35, "1 2 0 1.1 0.55 0.21")),
    Mistaken(edited((26, "1 all 1 0.9 0.6 0.18"), text=ALL_BANDS), 26, 19, "no band of reach 1 holds 0 to 999 mL/s (0 to 0.999 L/s)"),
    with_bands(30, 11, "in segment 1 (reach 1, band 1) Q × dx, 20,010 × 1,000 = 20,010,000 cm4/s, exceeds AD own + AD below, "
               "9,000,000 + 9,000,000 = 18,000,000 cm4/s; the segments are too long for the dispersion: segments of at most 899 cm "
               "(8.99 m) or a dispersion D of at least 1,112 cm2/s (0.1112 m2/s) in band 1 of reach 1 would do here",
               (30, "1 1 10 24.999 0.9 0.1 0.18")),
    with_bands(26, 11, "with flow row 1, from step 1 (0.00277778 h) on, in segment 1 (reach 1, band 2) Q × dx, 25,010 × 1,000",
               (31, "2 1 25 max 1.4 0.01 0.25")),
    with_bands(30, 12, "in segment 1 (reach 1, band 1) V is 4.516 of one whole", (30, "1 1 10 24.999 0.9 0.6 0.0010")),
    with_bands(27, 12, "with flow row 2, from step 4 (0.0111111 h) on, in segment 1 (reach 1, band 3) V is",
               (32, "3 1 0 9.999 0.6 0.4 0.0001")),
)


def any_text(rng: random.Random) -> str:
    """A text with some words changed, lost, added or moved."""
    lines = [line.split() for line in rng.choice((TEXT, FLOW_TEXT, BAND_TEXT, TEXT + BANDS, ALL_BANDS)).splitlines()]
    words = [word for line in lines for word in line]
    words += ["~3", "1e9", "-", "#", "all", "0", "²", "٣", "1.2.3", "unit", "reach", "flow", "band", "max", "9" * 60]
    for _ in range(rng.randint(1, 4)):
        line, kind = rng.choice(lines), rng.randrange(4)
        if kind == 0 and line:
            line[rng.randrange(len(line))] = rng.choice(words)
        elif kind == 1 and line:
            del line[rng.randrange(len(line))]
        elif kind == 2:
            line.insert(rng.randint(0, len(line)), rng.choice(words))
        else:
            lines.insert(rng.randint(0, len(lines)), lines.pop(rng.randrange(len(lines))))
    return "\n".join(" ".join(line) for line in lines)
