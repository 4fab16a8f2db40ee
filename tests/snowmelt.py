"""The brook of examples/snowmelt.txt in the sheet's units, written down without the tools."""
from __future__ import annotations

from model import Header, Row
from sheets import BROOK_REACH, Draft

BACKGROUND = 2_000_000              # ng/L
RELEASE = 32_000                    # mg/s of chloride, for half an hour
HOUR = 360                          # steps of 10 s
# L/s at the top, from each hour on
FLOWS = (430, 410, 390, 370, 350, 320, 310, 300, 310, 340, 400, 480, 580, 700, 820, 930, 1_000, 1_050, 1_030, 960,
         860, 760, 670, 590)
# segments, D, A, AS, ALPHA, qin
REACHES = ((100, 60_000, 10_000, 1_000, 100_000, 0), (160, 55_000, 12_000, 2_000, 50_000, 20_000),
           (140, 50_000, 16_000, 5_000, 20_000, 30_000))


def spilled(hour: int) -> list[Row]:
    """A release into the flow of its hour, and its end."""
    begin = hour * HOUR
    return [Row(begin, BACKGROUND + RELEASE * 1_000_000 // FLOWS[hour]), Row(begin + HOUR // 2, BACKGROUND)]


def day() -> Draft:
    reaches = [BROOK_REACH._replace(segments=segments, D=D, A=A, AS=AS, ALPHA=ALPHA, qin=qin, CL=BACKGROUND,
                                    start=BACKGROUND) for segments, D, A, AS, ALPHA, qin in REACHES]
    return Draft(Header(10, 1_000, 24 * HOUR, 30, 1_000 * FLOWS[0]), reaches,
                 [Row(0, BACKGROUND), *spilled(5), *spilled(16)], [100, 260, 400]
                 ).with_flows(*((hour * HOUR, 1_000 * flow) for hour, flow in enumerate(FLOWS) if hour))


EXAMPLES = {"snowmelt": day()}
