"""The brook of examples/weir.txt in the sheet's units, written down without the tools."""
from __future__ import annotations

from model import HIGHEST_FLOW, Band, Header, Row
from sheets import BROOK_REACH, Draft

BACKGROUND = 2_000_000              # ng/L
RELEASE = 24_000                    # mg/s of chloride, for a quarter of an hour
MINUTE = 6                          # steps of 10 s
LOW, HIGH = 160, 1_200              # L/s at the top, before the gate is opened and after
# minutes, and L/s at the top from then on
OPENING = ((270, 210), (275, 300), (280, 430), (285, 600), (290, 800), (295, 1_000), (300, HIGH))
# segments, D, A, AS, ALPHA, qin
REACHES = ((40, 70_000, 8_800, 1_100, 100_000, 0), (50, 52_000, 12_100, 2_400, 50_000, 10_000),
           (30, 40_000, 16_500, 5_600, 30_000, 40_000))
# L/s at which a band begins, and A, D and AS of each reach from there on
BANDS = (
    (0, (3_500, 19_000, 600), (4_800, 17_000, 1_400), (6_600, 16_000, 3_200)),
    (120, (4_400, 23_000, 700), (6_100, 21_000, 1_600), (8_300, 19_000, 3_700)),
    (170, (5_600, 27_000, 800), (7_700, 25_000, 1_800), (10_400, 22_000, 4_200)),
    (240, (7_000, 32_000, 1_000), (9_600, 29_000, 2_100), (13_100, 27_000, 4_800)),
    (340, (8_800, 38_000, 1_100), (12_100, 35_000, 2_400), (16_500, 32_000, 5_600)),
    (480, (11_100, 45_000, 1_300), (15_200, 42_000, 2_800), (20_700, 38_000, 6_400)),
    (680, (13_900, 54_000, 1_500), (19_100, 49_000, 3_200), (26_100, 45_000, 7_300)),
    (960, (18_000, 66_000, 1_700), (24_800, 60_000, 3_800), (33_800, 55_000, 8_600)))


def released(minute: int, flow: int) -> list[Row]:
    """A release into this flow, and its end."""
    begin = minute * MINUTE
    return [Row(begin, BACKGROUND + RELEASE * 1_000_000 // flow), Row(begin + 15 * MINUTE, BACKGROUND)]


def brook() -> Draft:
    reaches = [BROOK_REACH._replace(segments=segments, D=D, A=A, AS=AS, ALPHA=ALPHA, qin=qin, CL=BACKGROUND,
                                    start=BACKGROUND) for segments, D, A, AS, ALPHA, qin in REACHES]
    ends = [*(1_000 * begin - 1 for begin, *_ in BANDS[1:]), HIGHEST_FLOW]
    tables = [[Band(1_000 * begin, end, *figures[at]) for (begin, *figures), end in zip(BANDS, ends)]
              for at, _ in enumerate(reaches)]
    return Draft(Header(10, 1_000, 405 * MINUTE, 3 * MINUTE, 1_000 * LOW), reaches,
                 [Row(0, BACKGROUND), *released(30, LOW), *released(315, HIGH)], [40, 90, 120]
                 ).with_flows(*((minute * MINUTE, 1_000 * flow) for minute, flow in OPENING)).with_bands(*tables)


EXAMPLES = {"weir": brook()}
