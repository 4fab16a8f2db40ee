"""Uvas Creek in the sheet's units, written down from the report without the tools: what the examples must hold."""
from __future__ import annotations

from dataclasses import replace

from model import Header, Reach, Row
from sheets import BROOK_REACH, Draft

# segments, D, A, AS, ALPHA, qin: figures 15 and 16 of the report; RHO: figure 18
REACHES = (
    (38, 1_200, 3_000, 500, 0, 0, 40_000),
    (67, 1_500, 4_200, 500, 0, 0, 20_000),
    (176, 2_400, 3_600, 3_600, 30_000, 4_545, 20_000),
    (152, 3_100, 4_100, 4_100, 10_000, 1_974, 20_000),
    (236, 4_000, 5_200, 15_600, 45_000, 2_151, 40_000),
)
BEGIN, END = 540, 11_340            # the injection, in seconds from 8.25 h on
DURATION, PRINT = 56_700, 360


def reaches(background: int, sorbing: bool) -> list[Reach]:
    found = []
    for segments, D, A, AS, ALPHA, qin, RHO in REACHES:
        reach = BROOK_REACH._replace(segments=segments, D=D, A=A, AS=AS, ALPHA=ALPHA, qin=qin, CL=background,
                                     start=background)
        if sorbing:
            reach = reach._replace(LAMHAT=56_000, LAMHAT2=10 ** 9, RHO=RHO, Kd=70, CB=background)
        found.append(reach)
    return found


def river(dt: int, background: int, injected: int, sorbing: bool) -> Draft:
    return Draft(Header(dt, 100, DURATION // dt, PRINT // dt, 12_500), reaches(background, sorbing),
                 [Row(0, background), Row(BEGIN // dt, injected), Row(END // dt, background)],
                 [38, 105, 281, 433, 619])


def chloride() -> Draft:
    return river(2, 3_700_000, 11_400_000, sorbing=False)


def strontium(dt: int = 1) -> Draft:
    return river(dt, 130_000, 1_730_000, sorbing=True)


def figure_13() -> Draft:
    """The injection from 8.5 h on, to 9.15 h; the segments that meet at 38 m and 105 m."""
    rows = [Row(0, 3_700_000), Row(450, 11_400_000)]
    return replace(chloride().with_header(M=1_620), rows=rows, gauges=[38, 39, 105, 106])


EXAMPLES = {"uvas-chloride": chloride(), "uvas-strontium": strontium(), "uvas-figure-13": figure_13()}
