"""River sheets for the tests: a writer, and generators of good, extreme and damaged sheets.

A generator that draws at random takes its own random.Random, so that a seed fixes
every sheet.  A case says by itself what it must give where its making decides that;
elsewhere the model says it.
"""
from __future__ import annotations

import math
import random
from collections.abc import Callable, Iterable, Iterator
from dataclasses import dataclass, field, replace
from fractions import Fraction
from itertools import accumulate, combinations, product
from typing import NamedTuple, Optional

import model
from model import (BAND_MARK, BAND_RANGES, CONCENTRATION, FIELD, FLOW, FLOW_MARK, HIGHEST, HIGHEST_FLOW, HIGHEST_KD,
                   HIGHEST_RATE, KD_UNIT, LATERAL, LONGEST_SHEET, MARK, MARKS, MOST_BANDS, MOST_FLOW_ROWS, MOST_GAUGES,
                   MOST_REACHES, MOST_ROWS, MOST_SEGMENTS, MOST_STEPS, ONE_WHOLE, RATE_UNIT, REACH_RANGES, Band, FlowRow,
                   Header, Range, Reach, Row)

HIGHEST_FIELD = 2 ** 32 - 1
BUFFER = 65_536                     # a length at which a program may stop reading
ACCEPTED = 0                        # in place of a refusal's number
UNKNOWN_MARK = b"OTR4"
ORDER = (*range(1, 10), 16, 19, 10, 11, 12)     # of a loading's tests, but for 13


class Case(NamedTuple):
    """A sheet to try, and what is known of its answer."""

    name: str
    sheet: bytes
    number: Optional[int] = None    # ACCEPTED or the refusal, where the making decides it
    exact: str = ""                 # "fractions" or "brackets": solve the exact river too
    pauses: tuple[int, ...] = ()    # offsets where the delivery of the sheet pauses
    twin: bytes = b""               # another sheet that must give the same listing


@dataclass
class Draft:
    """The fields of a sheet, before they are written: marked OTR1 without flow rows, OTR2 with a list of them.

    With flow rows and a list of bands for each reach it is marked OTR3.
    """

    header: Header
    reaches: list[Reach]
    rows: list[Row] = field(default_factory=lambda: [Row(0, 0)])
    gauges: list[int] = field(default_factory=lambda: [1])
    flow_rows: Optional[list[FlowRow]] = None
    bands: Optional[list[list[Band]]] = None

    def with_header(self, **changes: int) -> Draft:
        return replace(self, header=self.header._replace(**changes))

    def with_reach(self, at: int, **changes: int) -> Draft:
        reaches = list(self.reaches)
        reaches[at] = reaches[at]._replace(**changes)
        return replace(self, reaches=reaches)

    def with_flows(self, *rows: tuple[int, int]) -> Draft:
        """The same with these flow rows: start steps and top flows."""
        return replace(self, flow_rows=[FlowRow(*row) for row in rows])

    def with_bands(self, *tables: list[Band]) -> Draft:
        """The same with these bands of the first reaches, and none of the others."""
        return replace(self, bands=[*tables, *([] for _ in self.reaches[len(tables):])])

    def with_table(self, at: int, bands: list[Band]) -> Draft:
        """The same with these bands of one reach, the others' as they are."""
        return replace(self, bands=[bands if reach == at else before for reach, before in enumerate(self.bands)])

    @property
    def segments(self) -> int:
        return model.segment_count(self.reaches)

    @property
    def mark(self) -> bytes:
        if self.bands is not None:
            return BAND_MARK
        return MARK if self.flow_rows is None else FLOW_MARK


class Field(NamedTuple):
    """One field of a sheet: its name, figure and range, and the refusal when it is outside."""

    name: str
    figure: int
    allowed: Range
    number: int

    @property
    def outside(self) -> int:
        """The lowest figure that is not in its range."""
        return 0 if self.allowed.low else self.allowed.high + 1


def fields(draft: Draft) -> list[Field]:
    """All fields in the sheet's order, after the mark."""
    M = draft.header.M
    ranges = model.header_ranges(M)
    found = [Field(name, figure, ranges[name], 5) for name, figure in draft.header._asdict().items()]
    found.append(Field("count of reaches", len(draft.reaches), Range(1, MOST_REACHES), 3))
    for at, reach in enumerate(draft.reaches, 1):
        found += [Field(f"reach {at} {name}", figure, REACH_RANGES[name], 6)
                  for name, figure in reach._asdict().items()]
    found.append(Field("count of rows", len(draft.rows), Range(1, MOST_ROWS), 3))
    for at, row in enumerate(draft.rows, 1):
        found.append(Field(f"row {at} start", row.start, Range(0, M), 8))
        found.append(Field(f"row {at} concentration", row.concentration, CONCENTRATION, 8))
    found.append(Field("count of gauges", len(draft.gauges), Range(1, MOST_GAUGES), 3))
    for at, gauge in enumerate(draft.gauges, 1):
        found.append(Field(f"gauge {at}", gauge, Range(1, draft.segments), 9))
    if draft.flow_rows is not None:
        found.append(Field("count of flow rows", len(draft.flow_rows), Range(1, MOST_FLOW_ROWS), 3))
        for at, row in enumerate(draft.flow_rows, 1):
            found.append(Field(f"flow row {at} start", row.start, Range(1, M), 16))
            found.append(Field(f"flow row {at} top flow", row.top_flow, FLOW, 16))
    for at, bands in enumerate(draft.bands or (), 1):
        found.append(Field(f"count of bands of reach {at}", len(bands), Range(0, MOST_BANDS), 3))
        for number, band in enumerate(bands, 1):
            found += [Field(f"reach {at} band {number} {name}", figure, BAND_RANGES[name], 19)
                      for name, figure in band._asdict().items()]
    return found


def word(figure: int) -> bytes:
    return figure.to_bytes(FIELD, "little")


def write(draft: Draft) -> bytes:
    """The sheet of a draft; figures may be outside their ranges."""
    return draft.mark + b"".join(word(each.figure) for each in fields(draft))


def offset(draft: Draft, name: str) -> int:
    """Where a named field begins on the sheet."""
    return len(MARK) + FIELD * [each.name for each in fields(draft)].index(name)


def put(sheet: bytes, at: int, figure: int) -> bytes:
    return sheet[:at] + word(figure) + sheet[at + FIELD:]


def accepted(draft: Draft) -> bool:
    return model.answer(write(draft)) is None


# The document's brook and its bench cases

BROOK_REACH = Reach(segments=1, D=50, A=100, AS=100, ALPHA=0, qin=0, qout=0, CL=0, LAMBDA=0, LAMBDA2=0,
                    LAMHAT=0, LAMHAT2=0, RHO=0, Kd=0, CB=0, start=0)


def brook(dt: int, Q: int, U: int = 0, M: int = 1, **reach: int) -> Draft:
    """Brook: one segment unless named, dx 10, interval 1, one boundary row, gauge 1."""
    return Draft(Header(dt=dt, dx=10, M=M, interval=1, top_flow=Q),
                 [BROOK_REACH._replace(**reach)], [Row(0, U)])


LISTING = b"""step segment channel storage sediment
1 1 2000 400 1334
2 1 2667 533 3556
done 2
"""


def listing_draft() -> Draft:
    """The river of the document's listing."""
    return brook(dt=2, Q=0, U=3_000, M=2, LAMHAT=500_000_000, LAMHAT2=500_000_000, Kd=2, CB=600)


def two_segment_brook() -> Draft:
    """T10: dt 1, Q 0, two segments, start 0, U 3,000 throughout; a gauge in each."""
    return replace(brook(dt=1, Q=0, U=3_000, segments=2), gauges=[1, 2])


def slope(top_flow: int, segments: int) -> Draft:
    """qin 0, qout 4,545, dx 1,000: the net gain is not whole."""
    reach = BROOK_REACH._replace(segments=segments, A=1_000, D=1_000, qout=4_545, start=500)
    return Draft(Header(dt=10, dx=1_000, M=2, interval=1, top_flow=top_flow), [reach],
                 [Row(0, 3_000)], [segments])


def still_reaches(*segments: int) -> Draft:
    return Draft(Header(dt=1, dx=10, M=1, interval=1, top_flow=0),
                 [BROOK_REACH._replace(segments=count, start=1_000) for count in segments],
                 [Row(0, 3_000)], [1])


def bench_cases() -> Iterator[Case]:
    """The document's listing and those bench figures that a sheet can show."""
    def case(name: str, draft: Draft, number: int) -> Case:
        return Case(name, write(draft), number, "fractions" if draft.segments < 9 else "brackets")

    yield case("the listing", listing_draft(), ACCEPTED)
    yield case("T6", brook(dt=2, Q=1_000, U=3_001), ACCEPTED)
    yield case("T7", brook(dt=3, Q=1_000), 12)
    yield case("T8", brook(dt=2, Q=1_001), 11)
    yield case("T9", brook(dt=3, Q=1_001), 11)
    yield case("T10", two_segment_brook(), ACCEPTED)
    for segments, least in ((1, 23), (2, 69), (3, 114), (6, 250)):
        yield case(f"slope, {segments} segments, {least}", slope(least, segments), ACCEPTED)
        yield case(f"slope, {segments} segments, {least - 1}", slope(least - 1, segments), 10)
    yield case("1,024 segments in one reach", still_reaches(1_024), ACCEPTED)
    yield case("1,024 segments in two reaches", still_reaches(1_000, 24), ACCEPTED)
    yield case("1,025 segments in two reaches", still_reaches(1_024, 1), 7)
    yield case("1,025 segments in one reach", still_reaches(1_025), 6)


# Rivers drawn at random, with parameters that pass tests 10 to 12


def log_uniform(rng: random.Random, low: int, high: int) -> int:
    """From low to high, each order of size as likely as the next."""
    if high <= low:
        return low
    return min(high, int(low * (high / low) ** rng.random() + rng.random()))


def concentration(rng: random.Random) -> int:
    return rng.choice((0, HIGHEST, HIGHEST - rng.randint(0, 9), rng.randint(0, 9),
                       log_uniform(rng, 1, HIGHEST), rng.randint(0, HIGHEST), rng.randint(0, HIGHEST)))


def split(rng: random.Random, total: int, count: int) -> list[int]:
    """That many whole numbers of at least 1 with this sum."""
    cuts = [0, *sorted(rng.sample(range(1, total), count - 1)), total]
    return [high - low for low, high in zip(cuts, cuts[1:])]


def shared(rng: random.Random, total: float, count: int) -> list[float]:
    """Random parts of a total, some of them 0."""
    weights = [rng.choice((0.0, 0.01, 1.0)) * rng.random() for _ in range(count)]
    whole = sum(weights)
    return [total * weight / whole if whole else 0.0 for weight in weights]


def within(allowed: Range, figure: float) -> int:
    return max(allowed.low, min(allowed.high, int(figure)))


def rate(share: float, dt: int) -> int:
    """The rate whose half-step number is that share of one whole, at most."""
    return within(model.RATE, share * 2 * RATE_UNIT / dt)


def random_rows(rng: random.Random, M: int, most: int) -> list[Row]:
    count = rng.randint(1, min(most, M + 1))
    starts = [0, *sorted(rng.sample(range(1, M + 1), count - 1))]
    if count > 1 and rng.random() < 0.2:
        starts[-1] = M
    return [Row(begin, concentration(rng)) for begin in starts]


def random_gauges(rng: random.Random, segments: int, most: int) -> list[int]:
    gauges = set(rng.sample(range(1, segments + 1), rng.randint(1, min(most, segments))))
    if len(gauges) < MOST_GAUGES and rng.random() < 0.5:
        gauges.add(rng.choice((1, segments)))
    return sorted(gauges)


def with_lateral_flow(rng: random.Random, draft: Draft, share: float) -> Draft:
    """Top flow, qin and qout that keep every flow between 0 and what test 11 allows."""
    dt, dx = draft.header.dt, draft.header.dx
    own = model.reach_of_segments(draft.reaches)
    limit = min(HIGHEST_FLOW, *((here + below) // dx for _, here, below in model.dispersion_around(own)))
    flow = rng.choice((0, limit, limit // 2, rng.randint(0, limit), rng.randint(0, limit)))
    draft = draft.with_header(top_flow=flow)
    for at, reach in enumerate(draft.reaches):
        if rng.random() < 0.4:
            continue
        most_in = within(FLOW, share * 2 * LATERAL * reach.A / dt)
        length = dx * reach.segments
        target = rng.choice((0, limit, rng.randint(0, limit)))
        gain = (target - flow) * LATERAL // length
        gain = max(-HIGHEST_FLOW, min(gain, most_in))
        both = rng.randint(0, most_in - max(gain, 0)) if rng.random() < 0.6 else 0
        both = min(both, HIGHEST_FLOW - max(-gain, 0))
        draft = draft.with_reach(at, qin=max(gain, 0) + both, qout=max(-gain, 0) + both)
        flow += gain * length // LATERAL
    return draft


def draw_river(rng: random.Random, segments: int, steps: int, dt: Optional[int] = None,
               figures: Callable[[random.Random], int] = concentration) -> Draft:
    """A river with its half-step sums below one whole, as far as rounding lets one say."""
    dx = log_uniform(rng, 10, 10_000)
    dt = dt or log_uniform(rng, 1, min(3_600, dx * dx // 4))
    most_reaches = rng.choice((1, 2, 4, 16, MOST_REACHES))
    lengths = split(rng, segments, rng.randint(1, min(segments, most_reaches)))
    full = rng.choice((0.2, 0.7, 0.95, 0.999))
    spread, unevenness = rng.choice((0.0, 0.0, 0.3, 0.8)), rng.choice((0.1, 0.3, 0.3, 0.9, 1.0))
    area = log_uniform(rng, 1, 1_000_000)
    areas = [within(model.AREA, area * (1 - spread * rng.random())) for _ in lengths]
    dispersion = rng.choice((0.0, 0.3, 0.6, 0.9, 1.0)) * full
    lateral, *_ = shared(rng, full - dispersion, 4)
    most_AD = dispersion * min(areas) * dx * dx / dt
    reaches = []
    for count, A in zip(lengths, areas):
        exchange, decay, sorption = shared(rng, full - dispersion - lateral, 3)
        into_storage, storage_decay, storage_sorption = shared(rng, full, 3)
        if into_storage == 0.0:
            exchange = 0.0
        hold = rng.choice((0.0, 0.01, 0.5, 1.0)) * full
        AS = within(model.AREA, 1 + exchange * A / into_storage if into_storage else area)
        exchange = min(exchange, into_storage * AS / A)
        Kd = rng.choice((0, 1, HIGHEST_KD, log_uniform(rng, 1, HIGHEST_KD)))
        RHO = within(REACH_RANGES["RHO"], sorption * KD_UNIT / (hold * Kd) if hold and Kd else 0)
        D = within(REACH_RANGES["D"], most_AD * (1 - unevenness * rng.random()) / A)
        reaches.append(Reach(
            segments=count, D=D, A=A, AS=AS, ALPHA=rate(exchange, dt), qin=0, qout=0, CL=figures(rng),
            LAMBDA=rate(decay, dt), LAMBDA2=rate(storage_decay, dt), LAMHAT=rate(hold, dt),
            LAMHAT2=rate(storage_sorption, dt), RHO=RHO, Kd=Kd, CB=figures(rng), start=figures(rng)))
    interval = rng.choice((1, 1, steps, rng.randint(1, steps)))
    draft = Draft(Header(dt=dt, dx=dx, M=steps, interval=interval, top_flow=0), reaches,
                  [row._replace(concentration=figures(rng))
                   for row in random_rows(rng, steps, rng.choice((1, 3, 20, MOST_ROWS)))],
                  random_gauges(rng, segments, rng.choice((1, 4, MOST_GAUGES))))
    return with_lateral_flow(rng, draft, lateral)


def top_flows(draft: Draft) -> Range:
    """The flows at the top that keep every flow between 0 and what test 11 allows."""
    own = model.reach_of_segments(draft.reaches)
    gains = [flow - draft.header.top_flow for flow in model.flows(draft.header, own)]
    limits = [min(HIGHEST_FLOW, (here + below) // draft.header.dx)
              for _, here, below in model.dispersion_around(own)]
    return Range(max(0, -min(gains)), min(limit - gain for limit, gain in zip(limits, gains)))


def with_flow_rows(rng: random.Random, draft: Draft) -> Draft:
    """Flow rows of every number, with flows at the ends of what passes tests 10 and 11 and between."""
    low, high = top_flows(draft)
    M = draft.header.M
    starts = rng.sample(range(1, M + 1), rng.randint(1, min(M, rng.choice((1, 3, 12, MOST_FLOW_ROWS)))))
    if rng.random() < 0.5:
        starts[0] = rng.choice((1, M))
    flow = draft.header.top_flow
    rows = []
    for start in sorted(set(starts)):
        flow = rng.choice((low, high, flow, rng.randint(low, max(low, high)), log_uniform(rng, max(low, 1), high)))
        rows.append((start, within(FLOW, flow)))
    return draft.with_flows(*rows)


def draw_flow_river(rng: random.Random, segments: int, steps: int, **choices) -> Draft:
    return with_flow_rows(rng, draw_river(rng, segments, steps, **choices))


def covering(lows: Iterable[int], figures: Callable[[], tuple[int, int, int]]) -> list[Band]:
    """Bands that cover all flows in rising order, from 0 and from each of these on, with A, D and AS of the maker."""
    begins = sorted({0, *lows})
    ends = [*(low - 1 for low in begins[1:]), HIGHEST_FLOW]
    return [Band(low, high, *figures()) for low, high in zip(begins, ends)]


def in_any_order(rng: random.Random, bands: list[Band]) -> list[Band]:
    return rng.choice((bands, bands[::-1], rng.sample(bands, len(bands))))


def any_figures(rng: random.Random) -> dict[str, int]:
    """A, D and AS from their whole ranges."""
    return {name: log_uniform(rng, 1, REACH_RANGES[name].high) for name in ("A", "D", "AS")}


def random_bands(rng: random.Random, reach: Reach, flows: list[int], grown: float, wild: bool) -> list[Band]:
    """Bands of a reach, up to 32 in any order; some begin at a flow of its segments or right behind one.

    Where A grows at least as much as any AD, and AS as much as A, tests 11 and 12 pass as they do without bands; else
    the figures lie around the reach's own.
    """
    count = rng.choice((1, 2, 2, 3, 6, MOST_BANDS))
    lows: set[int] = set()
    while len(lows) < count - 1:
        low = rng.choice((*(rng.choice(flows) + more for more in (0, 0, 1)), log_uniform(rng, 1, HIGHEST_FLOW),
                          rng.randint(1, HIGHEST_FLOW)))
        if 1 <= low <= HIGHEST_FLOW:
            lows.add(low)

    def figures() -> tuple[int, int, int]:
        if wild:
            names = ("A", "D", "AS")
            return tuple(within(REACH_RANGES[name], getattr(reach, name) * 4 ** (rng.random() - 0.5)) for name in names)
        A = within(model.AREA, reach.A * grown * (1 + rng.random()))
        D = within(REACH_RANGES["D"], math.ceil(reach.AD * (1 + (grown - 1) * rng.random()) / A))
        return A, D, within(model.AREA, math.ceil(reach.AS * A / reach.A) * (1 + rng.random()))

    return in_any_order(rng, covering(lows, figures))


def with_random_bands(rng: random.Random, draft: Draft) -> Draft:
    """Bands in most reaches; the own figures of one that has bands do not count, and mostly show that."""
    own = model.reach_of_segments(draft.reaches)
    courses = [model.flows(draft.header._replace(top_flow=top), own)
               for top in {draft.header.top_flow, *(row.top_flow for row in draft.flow_rows)}]
    grown, wild = rng.choice((1.0, 1.1, 2.0, 5.0)), draft.segments < 30 and rng.random() < 0.3
    tables: list[list[Band]] = []
    first = 0
    for at, reach in enumerate(list(draft.reaches)):
        flows = [flow for course in courses for flow in course[first:first + reach.segments]]
        first += reach.segments
        tables.append(random_bands(rng, reach, flows, grown, wild) if rng.random() < 0.8 else [])
        if tables[-1] and rng.random() < 0.7:
            draft = draft.with_reach(at, **any_figures(rng))
    return draft.with_bands(*tables)


def draw_band_river(rng: random.Random, segments: int, steps: int, **choices) -> Draft:
    return with_random_bands(rng, draw_flow_river(rng, segments, steps, **choices))


Drawer = Callable[..., Draft]
DRAWERS: tuple[Drawer, ...] = (draw_river, draw_flow_river, draw_band_river)


def good_river(rng: random.Random, segments: int, steps: int, draw: Drawer = draw_river, **choices) -> Draft:
    """The first accepted one; the draw is right nearly always, so the search is short."""
    for _ in range(1_000):
        draft = draw(rng, segments, steps, **choices)
        if accepted(draft):
            return draft
    raise RuntimeError("no accepted river in 1,000 draws")


def describe(draft: Draft) -> str:
    rows = "" if draft.flow_rows is None else f", {len(draft.flow_rows)} flow rows"
    bands = "" if draft.bands is None else f", {sum(map(len, draft.bands))} bands"
    return (f"{draft.segments} segments in {len(draft.reaches)} reaches, {draft.header.M} steps, "
            f"dt {draft.header.dt}, dx {draft.header.dx}{rows}{bands}")


def small_rivers(rng: random.Random, count: int, draw: Drawer = draw_river) -> Iterator[Case]:
    """Few segments and steps: the exact river in fractions."""
    for _ in range(count):
        draft = good_river(rng, rng.randint(1, 4), rng.randint(1, 6), draw)
        yield Case(describe(draft), write(draft), ACCEPTED, "fractions")


def rivers(rng: random.Random, count: int, most: int = 2_000, draw: Drawer = draw_river) -> Iterator[Case]:
    """All shapes, up to so many segments times steps; brackets around the exact river."""
    for _ in range(count):
        segments = log_uniform(rng, 1, 200)
        steps = log_uniform(rng, 1, max(1, most // segments))
        draft = good_river(rng, segments, steps, draw)
        yield Case(describe(draft), write(draft), ACCEPTED, "brackets")


def unsifted_rivers(rng: random.Random, count: int, draw: Drawer = draw_river) -> Iterator[Case]:
    """As drawn, with one to three fields of reaches or bands drawn anew from their whole range: the model decides."""
    for _ in range(count):
        draft = draw(rng, rng.randint(1, 12), rng.randint(1, 12))
        for _ in range(rng.randint(1, 3)):
            at, name = rng.randrange(len(draft.reaches)), rng.choice([each for each in Reach._fields if each != "segments"])
            bands = list(draft.bands[at]) if draft.bands is not None else []
            if bands:
                name = rng.choice((name, "A", "D", "AS"))
            allowed = REACH_RANGES[name]
            inside = log_uniform(rng, max(1, allowed.low), allowed.high)
            figure = rng.choice((allowed.low, allowed.high, inside))
            if bands and name in Band._fields:
                which = rng.randrange(len(bands))
                bands[which] = bands[which]._replace(**{name: figure})
                draft = draft.with_table(at, bands)
            else:
                draft = draft.with_reach(at, **{name: figure})
        yield Case(f"{describe(draft)}, {name} {figure}", write(draft))


def large_rivers(rng: random.Random, count: int, steps: int = 8, draw: Drawer = draw_river) -> Iterator[Case]:
    """Near the limits of segments, reaches, rows and gauges."""
    for _ in range(count):
        draft = good_river(rng, rng.choice((MOST_SEGMENTS, rng.randint(500, MOST_SEGMENTS))), steps, draw)
        yield Case(describe(draft), write(draft), ACCEPTED, "brackets")


def long_rivers(rng: random.Random, count: int, work: int = 6_000, draw: Drawer = draw_river) -> Iterator[Case]:
    """Few segments, many steps."""
    for _ in range(count):
        segments = rng.randint(1, 5)
        draft = good_river(rng, segments, work // segments, draw)
        draft = draft.with_header(interval=rng.randint(1, 50))
        yield Case(describe(draft), write(draft), ACCEPTED, "brackets")


# Extreme rivers


def plain() -> Draft:
    """A mild river of three reaches, three segments each, with every field in use."""
    reach = Reach(segments=3, D=5_000, A=10_000, AS=2_000, ALPHA=1_000_000, qin=3_000, qout=1_000, CL=500,
                  LAMBDA=100_000, LAMBDA2=200_000, LAMHAT=5_000_000, LAMHAT2=3_000_000, RHO=100_000, Kd=5,
                  CB=70, start=1_000)
    return Draft(Header(dt=10, dx=1_000, M=6, interval=2, top_flow=20_000),
                 [reach, reach._replace(A=12_000, start=3_000), reach._replace(CL=90_000, Kd=9)],
                 [Row(0, 7_000), Row(2, 900_000), Row(5, 0)], [1, 5, 9])


def plain_flows() -> Draft:
    """The plain river with three flow rows, one at the last step."""
    return plain().with_flows((1, 25_000), (3, 8_000), (6, 60_000))


def plain_bands() -> Draft:
    """The plain river with flow rows and bands in its first and third reach, which are not in the order of flows.

    A segment of the first is in each of its bands, by the flow row; those of the third are in two at the top flow.
    """
    first = [Band(10_000, 24_999, 9_000, 6_000, 1_800), Band(25_000, HIGHEST_FLOW, 14_000, 7_000, 2_500),
             Band(0, 9_999, 6_000, 4_000, 900)]
    third = [Band(20_150, HIGHEST_FLOW, 11_000, 5_500, 2_100), Band(0, 20_149, 8_000, 6_500, 1_700)]
    return plain_flows().with_bands(first, [], third)


def rate_for(parts: int, dt: int) -> Optional[int]:
    """A rate whose half-step number is exactly this, if there is one."""
    guess = parts * 2 * RATE_UNIT // (dt * ONE_WHOLE)
    for figure in (guess, guess + 1):
        if model.RATE.holds(figure) and model.rate_number(dt, figure) == parts:
            return figure
    return None


def tightened(draft: Draft) -> Optional[Draft]:
    """LAMBDA and LAMBDA2 of each reach raised until its highest T and V, of all flows, are exactly one whole."""
    rivers = model.rivers_of(model.read_sheet(write(draft)))
    first = 0
    for at, reach in enumerate(draft.reaches):
        own = [part.numbers for river in rivers for part in river[first:first + reach.segments]]
        first += reach.segments
        LAMBDA = rate_for(own[0].k + ONE_WHOLE - max(part.T for part in own), draft.header.dt)
        LAMBDA2 = rate_for(own[0].ks + ONE_WHOLE - max(part.V for part in own), draft.header.dt)
        if LAMBDA is None or LAMBDA2 is None:
            return None
        draft = draft.with_reach(at, LAMBDA=LAMBDA, LAMBDA2=LAMBDA2)
    return draft


def next_rate(figure: int, dt: int) -> int:
    """The lowest rate with a higher half-step number."""
    here = model.rate_number(dt, figure)
    while model.rate_number(dt, figure) == here:
        figure += 1
    return figure


def tight_rivers(rng: random.Random, count: int, draw: Drawer = draw_river) -> Iterator[Case]:
    """Half-step sums at exactly one whole, and one part above it."""
    made = 0
    while made < count:
        draft = tightened(good_river(rng, rng.randint(1, 6), rng.randint(1, 12), draw, dt=rng.choice((1, 1, 2))))
        if draft is None:
            continue
        made += 1
        yield Case(f"tight: {describe(draft)}", write(draft), ACCEPTED, "brackets")
        at = rng.randrange(len(draft.reaches))
        name = rng.choice(("LAMBDA", "LAMBDA2"))
        figure = next_rate(getattr(draft.reaches[at], name), draft.header.dt)
        if model.RATE.holds(figure):
            yield Case(f"one part above: {describe(draft)}, {name} {figure}",
                       write(draft.with_reach(at, **{name: figure})), 12)


def highest_figures(rng: random.Random) -> int:
    return rng.choice((HIGHEST, HIGHEST, HIGHEST, HIGHEST - rng.randint(0, 3)))


def highest_rivers(rng: random.Random, count: int, draw: Drawer = draw_river) -> Iterator[Case]:
    """Figures at 1,000,000,000 and no decay, so that rounding can carry one above it.

    In half of them h is one whole: W' is then the mean of C and C', which shows a C' above.
    """
    for _ in range(count):
        whole_h = rng.random() < 0.5
        draft = good_river(rng, rng.randint(1, 10), rng.randint(1, 20), draw, dt=2 if whole_h else None,
                           figures=highest_figures)
        for at in range(len(draft.reaches)):
            draft = draft.with_reach(at, LAMBDA=0, LAMBDA2=0)
            if whole_h:
                draft = draft.with_reach(at, LAMHAT=HIGHEST_RATE, RHO=0, Kd=1)
        yield Case(f"highest figures: {describe(draft)}", write(draft), ACCEPTED, "brackets")


def whole_by_rounding() -> Iterator[Case]:
    """e of one segment just below and just above one whole, each rounded to it: accepted."""
    dt, dx, D = 100, 9_973, 1_000_000
    wanted = {"below": range(-92_000, 0), "above": range(1, 92_000)}
    for A in range(499_979, 400_000, -1):
        space = 4 * A * dx ** 2
        Q = model.nearest(space // dt - 2 * A * D, dx)
        over = dt * (Q * dx + 2 * A * D) - space
        for side, offsets in list(wanted.items()):
            if over in offsets and Q * dx <= 2 * A * D and FLOW.holds(Q):
                del wanted[side]
                draft = Draft(Header(dt, dx, 3, 1, Q), [BROOK_REACH._replace(A=A, D=D)],
                              [Row(0, HIGHEST), Row(2, 1)])
                yield Case(f"e rounds to one whole from {side}", write(draft), ACCEPTED, "fractions")
        if not wanted:
            return
    raise RuntimeError("no e that rounds to one whole")


def one_reach(dt: int, dx: int, Q: int, rows: list[Row], **reach: int) -> Draft:
    """The brook's reach with changes, a step past the last row's start, a line each step, all gauges."""
    draft = Draft(Header(dt, dx, rows[-1].start + 1, 1, Q), [BROOK_REACH._replace(**reach)], rows)
    return replace(draft, gauges=list(range(1, draft.segments + 1)))


def above_the_highest() -> Draft:
    """Found by search: C' is above the highest figure inside the upward pass, and the figure above it shows that."""
    return one_reach(675, 358, 62_441, [Row(0, HIGHEST), Row(14, HIGHEST)], segments=10, D=160, A=143_216,
                     AS=164, ALPHA=3_217, qin=882_067, LAMHAT=1_407_407, RHO=102_925, Kd=1, CL=HIGHEST,
                     CB=HIGHEST, start=HIGHEST)


def extreme_rivers() -> Iterator[Case]:
    """Named rivers at the ends of ranges and tests, each with what it must give."""
    def case(name: str, draft: Draft, number: int = ACCEPTED) -> Case:
        return Case(name, write(draft), number, "brackets")

    U = [Row(0, 1), Row(1, 2), Row(2, 5), Row(3, HIGHEST), Row(4, HIGHEST - 1), Row(6, 8)]

    # halves go up
    yield case("C' is the mean of U and U'", one_reach(2, 10, 1_000, U, start=7))
    yield case("Z' is the mean of C and C'",
               one_reach(1, 10, 0, U, A=1_000_000, AS=1, ALPHA=2_000, start=7))
    yield case("W' is the mean of C and C'",
               one_reach(2, 10, 0, U, D=20, LAMHAT=HIGHEST_RATE, Kd=1, start=7))
    yield case("e and g are exact halves", one_reach(1, 8_192, 8, U, segments=3, A=524_288, D=1))

    high = [Row(0, HIGHEST), Row(1, HIGHEST - 1), Row(4, 0), Row(5, HIGHEST)]
    yield case("a(S+ks+m)/(S+V) is an exact half",
               one_reach(1, 10, 0, high, A=1_000_000, AS=25, ALPHA=25_000, LAMBDA2=HIGHEST_RATE,
                         start=HIGHEST))
    yield case("sS/(S+h) is an exact half",
               one_reach(2, 10, 0, high, D=30, LAMHAT=HIGHEST_RATE, RHO=2, Kd=1, start=HIGHEST))

    # the highest figure is kept to when the upward pass is over, not inside it
    yield case("C' above the highest inside the upward pass", above_the_highest())

    # numbers and sums at one whole and one part above
    yield case("h is one whole, Kd at its end",
               one_reach(2, 10, 0, U, D=20, LAMHAT=HIGHEST_RATE, Kd=HIGHEST_KD, start=HIGHEST))
    yield case("h is one part above", one_reach(3, 10, 0, U, D=20, LAMHAT=666_666_667), 12)
    yield case("b is above one whole and rounds to it",
               one_reach(1, 10, 0, U, A=17, AS=6, D=10, ALPHA=705_882_353, start=9))
    yield case("b is above one whole", one_reach(1, 10, 0, U, A=1_000_000, AS=1, D=10, ALPHA=2_001), 12)
    yield from whole_by_rounding()
    yield case("m is one whole: storage takes CB at once",
               one_reach(2, 10, 0, U, D=20, LAMHAT2=HIGHEST_RATE, CB=HIGHEST, start=5))
    yield case("ks is one whole: storage is emptied at once",
               one_reach(2, 10, 0, U, D=20, LAMBDA2=HIGHEST_RATE, CB=HIGHEST, start=HIGHEST))
    yield case("k is one whole: the channel is emptied at once",
               one_reach(2, 10, 0, U, D=0, LAMBDA=HIGHEST_RATE, start=HIGHEST))
    yield case("l is one whole: the channel takes CL at once",
               one_reach(2, 10, 0, U, A=1, D=0, qin=100_000, qout=100_000, CL=HIGHEST, start=5))
    sorbing = dict(D=0, RHO=1_000_000, Kd=HIGHEST_KD, start=5)
    yield case("s is one whole", one_reach(1, 10, 0, U, LAMHAT=2_000_000, **sorbing))
    yield case("s is above one whole", one_reach(1, 10, 0, U, LAMHAT=2_000_001, **sorbing), 12)
    yield case("s passes 64 bits", one_reach(3_600, 10, 0, U, LAMHAT=HIGHEST_RATE, **sorbing), 12)
    steep = [BROOK_REACH._replace(A=1_000_000, D=1_000_000), BROOK_REACH._replace(A=1, D=1)]
    yield case("e is far above one whole", replace(one_reach(3_600, 10, 0, U), reaches=steep), 12)
    rates = dict.fromkeys(("ALPHA", "LAMBDA", "LAMBDA2", "LAMHAT", "LAMHAT2"), HIGHEST_RATE)
    yield case("every rate and dt at its end",
               one_reach(3_600, 10, 0, U, A=1_000_000, AS=1, D=1_000_000, qin=HIGHEST_FLOW, qout=HIGHEST_FLOW,
                         RHO=1_000_000, Kd=HIGHEST_KD, **rates), 12)

    # four wholes, which 32 bits hold as 0
    yield case("a and b are four wholes", one_reach(8, 10, 0, U, D=0, ALPHA=HIGHEST_RATE), 12)
    yield case("b is four wholes", one_reach(1, 10, 0, U, D=0, A=1_000_000, AS=1, ALPHA=8_000), 12)
    yield case("l is four wholes", one_reach(8, 10, 0, U, D=0, A=1, qin=100_000, qout=100_000), 12)
    yield case("s is four wholes", one_reach(1, 10, 0, U, LAMHAT=8_000_000, **sorbing), 12)
    yield case("e is four wholes", one_reach(8, 10, 0, U, D=100), 12)
    yield case("e and g are four wholes", one_reach(8, 10, 0, U, segments=2, D=100), 12)
    for name in ("LAMBDA", "LAMBDA2", "LAMHAT", "LAMHAT2"):
        yield case(f"four wholes from {name}", one_reach(8, 10, 0, U, D=0, **{name: HIGHEST_RATE}), 12)
    yield case("T is four wholes in four parts",
               one_reach(2, 10, 0, U, A=1, AS=1_000_000, D=100, qin=100_000, LAMBDA=HIGHEST_RATE,
                         ALPHA=HIGHEST_RATE), 12)
    yield case("V is four wholes in three parts",
               one_reach(2, 10, 0, U, D=0, A=2, AS=1, ALPHA=HIGHEST_RATE, LAMBDA2=HIGHEST_RATE,
                         LAMHAT2=HIGHEST_RATE), 12)

    # flows
    wide = dict(segments=4, A=1_000_000)
    yield case("the highest flow, T one whole",
               one_reach(100, 10_000, HIGHEST_FLOW, U, D=1_000_000, start=HIGHEST, **wide))
    yield case("a flow that rises to 100,000,000",
               one_reach(1, 10_000, 99_999_650, U, D=1_000_000, qin=1_000, **wide))
    yield case("a flow that rises to 100,000,001",
               one_reach(1, 10_000, 99_999_651, U, D=1_000_000, qin=1_000, **wide), 10)
    yield case("a flow that falls to 0", one_reach(1, 10_000, 350, U, D=1_000, qout=1_000, **wide))
    yield case("a flow that falls to -1", one_reach(1, 10_000, 349, U, D=1_000, qout=1_000, **wide), 10)
    yield case("a little less than nothing is rounded down to -1", one_reach(1, 10, 0, U, qin=5, qout=6), 10)
    yield case("a little more than nothing is rounded down to 0",
               one_reach(1, 10, 0, U, segments=2, D=0, qin=6, qout=5, CL=999))
    yield case("no dispersion and no flow",
               one_reach(3_600, 10, 0, U, segments=2, D=0, start=HIGHEST, LAMBDA=555_000))
    yield case("no dispersion and a flow of 1", one_reach(1, 10, 1, U, D=0), 11)
    yield case("Q x dx equals AD own + AD below", one_reach(2, 10, 1_000, U, segments=3, start=3))
    yield case("Q x dx equals AD own + AD below in the last segment alone",
               one_reach(1, 10, 999, U, segments=3, qin=5_000))
    yield case("Q x dx is over AD own + AD below in the last segment alone",
               one_reach(1, 10, 1_000, U, segments=3, qin=5_000), 11)
    yield case("lateral inflow and outflow at their ends",
               one_reach(1, 10, 500, U, segments=3, A=1_000_000, D=40, qin=HIGHEST_FLOW, qout=HIGHEST_FLOW,
                         CL=HIGHEST, start=1))

    # fields at their ends in accepted rivers
    yield case("areas 1 and 1,000,000",
               one_reach(1, 10, 1, U, A=1, AS=1_000_000, D=90, ALPHA=99_000_000, start=12))
    yield case("areas 1,000,000 and 1",
               one_reach(1, 10, 1, U, A=1_000_000, AS=1, D=90, ALPHA=1_999, start=12))
    yield case("RHO and Kd at their ends",
               one_reach(1, 10, 0, U, LAMHAT=1_000_000, RHO=1_000_000, Kd=HIGHEST_KD, start=HIGHEST))
    yield case("zeros wherever zero is allowed", one_reach(1, 10, 0, [Row(0, 0)], D=0, A=1, AS=1))
    base = plain()
    still = [reach._replace(qin=0, qout=0, D=D) for reach, D in zip(base.reaches, (5_000, 0, 5_000))]
    yield case("still water between dispersion", replace(base, reaches=still).with_header(top_flow=0))
    slow = [reach._replace(ALPHA=1_000, LAMHAT=5_000, LAMHAT2=7_000) for reach in base.reaches]
    yield case("dx and dt at their ends",
               replace(base, reaches=slow).with_header(dx=10_000, dt=3_600, top_flow=5_000))
    yield case("a row at start M", replace(base, rows=[Row(0, 5), Row(6, HIGHEST)]))
    yield case("rows at M - 1 and M, only M shown",
               replace(base, rows=[Row(0, 5), Row(5, 0), Row(6, HIGHEST)]).with_header(interval=6))
    yield case("a row past M", replace(base, rows=[Row(0, 5), Row(7, HIGHEST)]), 8)
    yield case("interval above half of M", base.with_header(interval=4))
    yield case("interval above M", base.with_header(interval=7), 5)
    yield case("gauges in every segment", replace(base, gauges=list(range(1, 10))))
    yield case("a gauge past the last segment", replace(base, gauges=[1, 10]), 9)


def middle_gains(draft: Draft) -> list[Fraction]:
    """The gain of all segments before each one plus half its own, in mL/s, not rounded."""
    own = [Fraction((reach.qin - reach.qout) * draft.header.dx, LATERAL)
           for reach in draft.reaches for _ in range(reach.segments)]
    return [before + each / 2 for before, each in zip(accumulate(own, initial=Fraction(0)), own)]


def lateral_reach(rng: random.Random, D: int) -> Reach:
    """One that gains or loses, a little or much."""
    qin, qout = (rng.choice((0, 0, rng.randint(1, 30), log_uniform(rng, 1, HIGHEST_FLOW // 20))) for _ in range(2))
    return BROOK_REACH._replace(segments=rng.randint(1, 4), D=D, A=1_000_000, qin=qin, qout=qout,
                                CL=concentration(rng), start=concentration(rng))


def lateral_rivers(rng: random.Random, count: int) -> Iterator[Case]:
    """The lowest and the highest flow at the top that pass 10, and one less and one more; also as a flow row's.

    11 and 12 pass whatever the flow is.
    """
    for _ in range(count):
        dx = log_uniform(rng, 100, 10_000)
        reaches = [lateral_reach(rng, min(1_000_000, dx * dx // 2)) for _ in range(rng.randint(1, 4))]
        draft = Draft(Header(dt=1, dx=dx, M=2, interval=1, top_flow=0), reaches, [Row(0, concentration(rng))])
        draft = replace(draft, gauges=list(range(1, draft.segments + 1)))
        gains = [math.floor(gain) for gain in middle_gains(draft)]
        low, high = max(0, -min(gains)), min(HIGHEST_FLOW, HIGHEST_FLOW - max(gains))
        for top in filter(FLOW.holds, (low - 1, low, high, high + 1)):
            number = ACCEPTED if low <= top <= high else 10
            for name, flowing in (("at the top", draft.with_header(top_flow=top)),
                                  ("of a row", draft.with_header(top_flow=low).with_flows((1, top)))):
                yield Case(f"{describe(flowing)}: {top} mL/s {name}", write(flowing), number, "brackets")


def fullest_flows(rng: random.Random) -> Draft:
    """The most reaches, rows, gauges and flow rows: the longest sheet without bands."""
    reach = plain().reaches[0]._replace(segments=1, qout=3_000)
    steps = MOST_ROWS - 1
    return Draft(Header(dt=10, dx=1_000, M=steps, interval=steps - 1, top_flow=20_000),
                 [reach._replace(start=concentration(rng), CL=concentration(rng), CB=concentration(rng),
                                 Kd=rng.randint(0, 9), LAMBDA=rng.randint(0, 1_000_000))
                  for _ in range(MOST_REACHES)],
                 [Row(at, concentration(rng)) for at in range(MOST_ROWS)],
                 [at * MOST_REACHES // MOST_GAUGES for at in range(1, MOST_GAUGES + 1)],
                 [FlowRow(at * steps // MOST_FLOW_ROWS, rng.randint(0, 60_000))
                  for at in range(1, MOST_FLOW_ROWS + 1)])


def fullest(rng: random.Random) -> Draft:
    """The most bands in each reach too: the longest sheet there is."""
    def bands() -> list[Band]:
        lows = rng.sample(range(1, 60_000), MOST_BANDS - 1)
        return in_any_order(rng, covering(lows, lambda: (rng.randint(8_000, 12_000), rng.randint(5_000, 6_000),
                                                         rng.randint(1_500, 2_500))))

    draft = fullest_flows(rng)
    return draft.with_bands(*(bands() for _ in draft.reaches))


def broad_rivers(rng: random.Random) -> Iterator[Case]:
    """A long listing, and the highest count of steps."""
    wide = good_river(rng, MOST_GAUGES, 1_000).with_header(interval=1)
    yield Case(f"a listing of {MOST_GAUGES * wide.header.M:,} lines",
               write(replace(wide, gauges=list(range(1, MOST_GAUGES + 1)))), ACCEPTED)
    most = brook(dt=1, Q=500, M=MOST_STEPS, ALPHA=100_000_000, LAMHAT=100_000_000, RHO=1_000_000, Kd=1)
    rows = [Row(0, 0), Row(10, HIGHEST), Row(MOST_STEPS // 2, 3), Row(MOST_STEPS, HIGHEST)]
    most = replace(most, rows=rows).with_header(interval=MOST_STEPS // 16)
    yield Case("100,000 steps", write(most), ACCEPTED)
    flows = [(1, 0), (11, 1_000), (MOST_STEPS // 2, 250), (MOST_STEPS - 1, 900), (MOST_STEPS, 0)]
    yield Case("100,000 steps, five flow rows", write(most.with_flows(*flows)), ACCEPTED)


# Damaged sheets


def cut_sheets(draft: Draft) -> Iterator[Case]:
    """The sheet cut after each of its bytes but the last."""
    sheet = write(draft)
    for length in range(len(sheet)):
        yield Case(f"cut after {length} bytes", sheet[:length], 1 if length < len(MARK) else 2)


def lengthened_sheets(rng: random.Random, draft: Draft) -> Iterator[Case]:
    """Bytes after the last record, few and many; a wrong header does not come first."""
    sheet = write(draft)
    lengths = [length + more for length in (LONGEST_SHEET, BUFFER) for more in (-1, 0, 1)]
    for extra in (1, 2, 3, 4, 5, 8, 64, 1_000, *(length - len(sheet) for length in lengths), 200_000):
        for tail in (bytes(extra), rng.randbytes(extra), (sheet * (1 + extra // len(sheet)))[:extra]):
            yield Case(f"{extra} bytes added", sheet + tail, 4)
        yield Case(f"{extra} bytes added, dt 0", write(draft.with_header(dt=0)) + bytes(extra), 4)
        yield Case(f"{extra} bytes added, another mark", UNKNOWN_MARK + sheet[len(MARK):] + bytes(extra), 1)


def longest_sheets(rng: random.Random) -> Iterator[Case]:
    """The longest sheet whole, cut by a byte and with bytes after it, which a program sees only if it reads them."""
    flows = write(fullest_flows(rng))
    yield Case("the longest sheet without bands", flows, ACCEPTED)
    yield Case("the longest sheet without bands, cut by a byte", flows[:-1], 2)
    yield Case("the longest sheet without bands, a byte added", flows + b"\0", 4)
    yield Case("the longest sheet without bands, as long as the longest", flows.ljust(LONGEST_SHEET, b"\0"), 4)
    draft = fullest(rng)
    sheet = write(draft)
    if len(sheet) != LONGEST_SHEET:
        raise RuntimeError(f"the fullest sheet has {len(sheet)} bytes, not {LONGEST_SHEET}")
    yield Case("the longest sheet", sheet, ACCEPTED)
    yield Case("the longest sheet, cut by a byte", sheet[:-1], 2)
    for extra in (1, 2, FIELD, LONGEST_SHEET, BUFFER - LONGEST_SHEET, BUFFER, 200_000):
        for tail in (bytes(extra), rng.randbytes(extra)):
            yield Case(f"the longest sheet, {extra} bytes added", sheet + tail, 4)
        yield Case(f"the longest sheet, {extra} bytes added, dt 0", write(draft.with_header(dt=0)) + bytes(extra), 4)
    yield Case("the longest sheet, a byte added after a pause", sheet + b"\0", 4, "", (len(sheet),))


def marked_sheets(rng: random.Random, draft: Draft) -> Iterator[Case]:
    """Another mark, whatever follows."""
    own, rest = draft.mark, write(draft)[len(MARK):]
    marks = [b"OTR0", b"OTR4", b"OTR5", b"otr1", b"otr3", b"1RTO", b"3RTO", b"OTRI", b"\0\0\0\0", b" OTR", b"OTR\n"]
    marks += [own[:at] + bytes([own[at] ^ 1 << bit]) + own[at + 1:]
              for at in range(len(own)) for bit in range(8)]
    for mark in (mark for mark in marks if mark not in MARKS):
        yield Case(f"mark {mark!r}", mark + rest, 1)
        yield Case(f"mark {mark!r} alone", mark, 1)
        yield Case(f"mark {mark!r}, then anything", mark + rng.randbytes(rng.randint(0, 300)), 1)
    yield Case("nothing at all", b"", 1)
    yield Case("the mark alone", own, 2)
    for length in (4, 19, 20, 21, 24, 2_000):
        yield Case(f"the mark and {length} zero bytes", own + bytes(length), 3 if length >= 24 else 2)
        yield Case(f"{length} bytes of anything", rng.randbytes(length))


def counted_sheets(draft: Draft) -> Iterator[Case]:
    """Counts out of range, whole or cut, and counts that do not fit what follows."""
    sheet = write(draft)
    counts = [each for each in fields(draft) if each.number == 3]
    for each in counts:
        at = offset(draft, each.name)
        for figure in (0, each.allowed.high + 1, 256 * each.figure, 2 ** 16, 2 ** 31, HIGHEST_FIELD):
            if each.allowed.holds(figure):
                continue
            wrong = put(sheet, at, figure)
            yield Case(f"{each.name} {figure}", wrong, 3)
            yield Case(f"{each.name} {figure}, cut after it", wrong[:at + FIELD], 3)
            yield Case(f"{each.name} {figure}, cut later", wrong[:len(sheet) - 1], 3)
            yield Case(f"{each.name} {figure}, bytes added", wrong + bytes(7), 3)
            for inside in range(FIELD):
                yield Case(f"{each.name} {figure}, cut in it", wrong[:at + inside], 2)
        for figure in (1, max(0, each.figure - 1), each.figure + 1, each.allowed.high):
            yield Case(f"{each.name} {figure} for {each.figure}", put(sheet, at, figure))
    for first, later in zip(counts, counts[1:]):
        first_at, later_at = offset(draft, first.name), offset(draft, later.name)
        wrong = put(sheet, later_at, later.outside)
        yield Case(f"{later.name} {later.outside}, cut before it", wrong[:later_at], 2)
        yield Case(f"{later.name} {later.outside}, cut after {first.name}", wrong[:first_at + FIELD + 1], 2)
        yield Case(f"{later.name} {later.outside}, {first.name} {first.outside}", put(wrong, first_at, first.outside), 3)


def end_of_range_sheets(draft: Draft) -> Iterator[Case]:
    """Each field at the ends of its range and just outside, all else as it was."""
    sheet = write(draft)
    for each in fields(draft):
        if each.number == 3:
            continue
        at = offset(draft, each.name)
        low, high = each.allowed
        # the highest M has a river of its own, with fewer segments: broad_rivers
        inside = {low, low + 1} if each.name == "M" else {low, low + 1, high - 1, high}
        for figure in sorted(inside):
            yield Case(f"{each.name} {figure}", put(sheet, at, figure))
        for figure in (low - 1, high + 1, 2 ** 31, HIGHEST_FIELD):
            if figure >= 0 and not each.allowed.holds(figure):
                yield Case(f"{each.name} {figure}", put(sheet, at, figure), each.number)


def disordered_sheets(draft: Draft) -> Iterator[Case]:
    """Rows and gauges that do not rise strictly, and a first row that does not start at 0."""
    M, last = draft.header.M, draft.segments
    for starts in ((1,), (M,), (0, 0), (0, 2, 2), (0, 3, 2), (2, 0), (0, 4, 1, 5), (0, 1, 2, 1), (1, 2, 3),
                   (0, M, M), (0, M + 1), (M + 1,), (0, M, M + 1), (0, 5, 0)):
        rows = [Row(begin, 100 * begin) for begin in starts]
        yield Case(f"rows start at {starts}", write(replace(draft, rows=rows)), 8)
    for at in range(len(draft.rows)):
        rows = [row._replace(concentration=HIGHEST + (place == at)) for place, row in enumerate(draft.rows)]
        yield Case(f"row {at + 1} above the highest", write(replace(draft, rows=rows)), 8)
    for gauges in ((0,), (0, 1), (1, 1), (2, 1), (1, 3, 2), (1, 3, 3), (1, 2, 4, 3, 5), (last, 1), (last, last),
                   (last + 1,), (1, last + 1), (HIGHEST_FIELD,), (1, HIGHEST_FIELD)):
        yield Case(f"gauges {gauges}", write(replace(draft, gauges=list(gauges))), 9)
    for starts in ((0,), (0, M), (0, 1, 2, 3, 4, 5, 6), (0, M - 1, M)):
        rows = [Row(begin, HIGHEST - begin) for begin in starts]
        yield Case(f"rows start at {starts}", write(replace(draft, rows=rows)), ACCEPTED)
    for gauges in ((1,), (last,), (1, last), tuple(range(1, last + 1))):
        yield Case(f"gauges {gauges}", write(replace(draft, gauges=list(gauges))), ACCEPTED)


GAP, OVERLAP = ([Band(0, 49, 9_000, 6_000, 1_800), Band(50 + more, HIGHEST_FLOW, 9_000, 6_000, 1_800)] for more in (1, -1))
BAD_TABLES = ([Band(0, HIGHEST_FLOW, 0, 6_000, 1_800)], OVERLAP, GAP)      # a field out of range; by one flow


def draft_fault(number: int, draft: Draft, at: int) -> Draft:
    """A draft that breaks test 5 to 12, 16 or 19, in that reach where the test has reaches."""
    M = draft.header.M
    if number == 5:
        return draft.with_header(**(dict(dt=0), dict(dx=9), dict(top_flow=HIGHEST_FLOW + 1))[at])
    if number == 6:
        return draft.with_reach(at, **(dict(A=0), dict(Kd=HIGHEST_KD + 1), dict(start=HIGHEST + 1))[at])
    if number == 7:
        return draft.with_reach(at, segments=MOST_SEGMENTS)
    if number == 8:
        late = draft.rows[at]._replace(start=M + 1)
        return replace(draft, rows=[*draft.rows[:at], late, *draft.rows[at + 1:]])
    if number == 9:
        return replace(draft, gauges=[*draft.gauges[:at], 0, *draft.gauges[at + 1:]])
    if number == 16:
        change = (dict(start=0), dict(start=M + 1), dict(top_flow=HIGHEST_FLOW + 1))[at]
        wrong = draft.flow_rows[at]._replace(**change)
        return replace(draft, flow_rows=[*draft.flow_rows[:at], wrong, *draft.flow_rows[at + 1:]])
    if number == 19:
        return draft.with_table(at, BAD_TABLES[at])
    if number == 10:
        return draft.with_reach(at, qout=HIGHEST_FLOW)
    if number == 11:
        still = draft.with_reach(at, D=0)
        return still if draft.bands is None else still.with_table(at, [band._replace(D=0) for band in draft.bands[at]])
    return draft.with_reach(at, LAMBDA=HIGHEST_RATE)


def sheet_fault(number: int, sheet: bytes, draft: Draft, late: bool) -> bytes:
    """A sheet that breaks test 1 to 4; `late` puts it in the last section, else in the reaches."""
    if number == 1:
        return UNKNOWN_MARK + sheet[len(MARK):]
    if number == 2:
        return sheet[:-1] if late else sheet[:offset(draft, "reach 2 D")]
    if number == 3:
        count = [each for each in fields(draft) if each.number == 3][-1 if late else 0]
        return put(sheet, offset(draft, count.name), count.outside)
    return sheet + bytes(4)


def tests_of(draft: Draft) -> list[int]:
    """The numbers of the tests that a sheet goes through, in their order."""
    missing = {16: draft.flow_rows is None, 19: draft.bands is None}
    return [number for number in ORDER if not missing.get(number)]


def with_faults(draft: Draft, numbers: list[int], at: dict[int, int], late: dict[int, bool]) -> bytes:
    """The river with all of these faults at once."""
    for number in numbers:
        if number >= 5:
            draft = draft_fault(number, draft, at.get(number, 0))
    sheet = write(draft)
    for number in (3, 4, 2, 1):
        if number in numbers:
            sheet = sheet_fault(number, sheet, draft, late.get(number, False))
    return sheet


def faulty_pairs(draft: Draft) -> Iterator[Case]:
    """Every two tests broken at once, the one that comes first early and late in the river."""
    for low, high in combinations(tests_of(draft), 2):
        if (low, high) in ((2, 3), (2, 4)):
            continue
        for early, later in ((0, 2), (2, 0), (1, 1)):
            at = {low: early, high: later}
            late = {number: place == 2 for number, place in at.items()}
            yield Case(f"{low} at {early} and {high} at {later}", with_faults(draft, [low, high], at, late), low)
    for number, late in ((2, {2: False, 3: True}), (3, {2: True, 3: False})):
        yield Case(f"2 and 3, {number} met first", with_faults(draft, [2, 3], {}, late), number)


def many_faults(rng: random.Random, draft: Draft, count: int) -> Iterator[Case]:
    """Two to six faults at once; the test that comes first is the answer."""
    tests = tests_of(draft)
    for _ in range(count):
        first = rng.randrange(len(tests) - 1)
        later = tests[first + 1:]
        numbers = {tests[first], *rng.sample(later, min(len(later), rng.randint(1, 5)))}
        if 2 in numbers:
            numbers -= {3, 4}           # a cut sheet has no bytes to follow, and decides 3 by its place
        at = {number: rng.randrange(3) for number in numbers}
        late = {number: rng.random() < 0.5 for number in numbers}
        yield Case(f"faults {sorted(numbers)} at {at}", with_faults(draft, sorted(numbers), at, late), tests[first])


# Flow rows


def other_marks(draft: Draft) -> Iterator[Case]:
    """Sheets with one section too many or too few for their mark."""
    sheet = write(draft)
    end = offset(draft, "count of flow rows")
    yield Case("OTR1 with flow rows", MARK + sheet[len(MARK):], 4)
    yield Case("OTR1 with flow rows, dt 0", MARK + write(draft.with_header(dt=0))[len(MARK):], 4)
    yield Case("OTR1 with a count of flow rows alone", MARK + sheet[len(MARK):end + FIELD], 4)
    yield Case("OTR1 of the same river", MARK + sheet[len(MARK):end], ACCEPTED)
    yield Case("OTR2 without flow rows", sheet[:end], 2)
    yield Case("OTR2 without flow rows, dt 0", write(draft.with_header(dt=0))[:end], 2)
    yield Case("OTR2 without flow rows, bytes added", sheet[:end] + bytes(FIELD), 3)
    yield Case("OTR3 without bands", BAND_MARK + sheet[len(MARK):], 2)
    yield Case("OTR3 without flow rows", BAND_MARK + sheet[len(MARK):end], 2)
    yield Case("another mark with flow rows", UNKNOWN_MARK + sheet[len(MARK):], 1)


def disordered_flows(draft: Draft) -> Iterator[Case]:
    """Flow rows with each ground of 16, and with none."""
    M = draft.header.M
    for starts in ((0,), (0, 1), (M + 1,), (1, M + 1), (HIGHEST_FIELD,), (1, 1), (2, 1), (1, 3, 2), (1, 2, 2), (M, M),
                   (1, 2, 3, 3, 5), (3, 1, 2), (2, 0), (1, 0, 2), (M, 1), (1, M, M + 1)):
        rows = [(start, 20_000) for start in starts]
        yield Case(f"flow rows start at {starts}", write(draft.with_flows(*rows)), 16)
    for count in (1, 2, 3, M):
        for at in range(count):
            for figure in (HIGHEST_FLOW + 1, HIGHEST_FIELD):
                rows = [(start, figure if start == at + 1 else 20_000) for start in range(1, count + 1)]
                yield Case(f"flow row {at + 1} of {count} has {figure}", write(draft.with_flows(*rows)), 16)
    for starts in ((1,), (M,), (1, M), tuple(range(1, M + 1)), (2, 3), (M - 1, M)):
        rows = [(start, 10_000 * start) for start in starts]
        yield Case(f"flow rows start at {starts}", write(draft.with_flows(*rows)), ACCEPTED, "brackets")


def falling(top_flow: int, *flows: int) -> Draft:
    """Test 10 wants 23, 69 and 114 at the top for its three segments, 11 allows 2,023; a flow row at each step."""
    return slope(top_flow, 3).with_header(M=max(2, len(flows))).with_flows(*enumerate(flows, 1))


def narrowing(top_flow: int, *flows: int) -> Draft:
    """Test 11 allows flows of 900, 700, 400 and 200 in its four segments; a flow row at each step."""
    return Draft(Header(dt=1, dx=10, M=max(2, len(flows)), interval=1, top_flow=top_flow),
                 [BROOK_REACH._replace(D=D) for D in (50, 40, 30, 10)], [Row(0, 3_000)], [1, 4]
                 ).with_flows(*enumerate(flows, 1))


def filling(top_flow: int, *flows: int) -> Draft:
    """Test 12 allows a flow of 333 in its one segment, 11 one of 1,000; a flow row at each step."""
    return brook(3, top_flow, 3_000, max(2, len(flows))).with_flows(*enumerate(flows, 1))


def halving(top_flow: int, *flows: int) -> Draft:
    """Test 12 allows even flows in the first of its three segments, and up to 100 in the last; a row at each step.

    With dt 1 and A x dx 2^29 every mL/s is half a part of e and of g: both halves of an odd flow go up.
    """
    half, reach = ONE_WHOLE // 2, BROOK_REACH._replace(A=2 ** 19, AS=1_000_000, D=1, ALPHA=HIGHEST_RATE)
    tight = [reach._replace(LAMBDA=rate_for(half - flowing, 1)) for flowing in (1_024, 512 + 100 // 2)]
    return Draft(Header(dt=1, dx=2 ** 10, M=max(2, len(flows)), interval=1, top_flow=top_flow),
                 [tight[0], reach, tight[1]], [Row(0, HIGHEST)], [1, 3]).with_flows(*enumerate(flows, 1))


class FlowFault(NamedTuple):
    """A sheet that a test refuses for one of its flows, and the segment that it names."""

    name: str
    draft: Draft
    number: int
    segment: int


def flow_faults() -> Iterator[FlowFault]:
    """Tests 10 to 12 at fault with the top flow, with a row's, and with several: the first flow at fault decides."""
    most = MOST_FLOW_ROWS
    for number, river, good, bad, segment in (
            (10, falling, 114, 113, 3), (10, falling, 114, 68, 2), (10, falling, 114, 22, 1),
            (11, narrowing, 200, 201, 4), (11, narrowing, 200, 401, 3), (12, filling, 333, 334, 1),
            (12, halving, 100, 99, 1), (12, halving, 100, 102, 3)):
        yield FlowFault(f"{number}: the top flow, {bad}", river(bad, good), number, segment)
        for rows, at in ((1, 1), (2, 2), (5, 2), (most, 1), (most, 2), (most, most)):
            flows = [bad if row == at else good for row in range(1, rows + 1)]
            yield FlowFault(f"{number}: row {at} of {rows}, {bad}", river(good, *flows), number, segment)
    for number, river, good, first, later, segment in (
            (10, falling, 114, 113, 22, 3), (11, narrowing, 200, 201, 901, 4), (11, narrowing, 200, 401, 701, 3),
            (12, halving, 100, 102, 99, 3)):
        yield FlowFault(f"{number}: the top flow, then a row's", river(first, later), number, segment)
        yield FlowFault(f"{number}: row 1, then row 2", river(good, first, later), number, segment)
        yield FlowFault(f"{number}: row 63, then row 64", river(good, *[good] * (most - 2), first, later), number,
                        segment)
    for name, draft, number, segment in (
            ("10 of row 2, 11 of the top flow", falling(2_024, 114, 113), 10, 3),
            ("10 of row 64, 11 of row 1", falling(114, 2_024, *[114] * (most - 2), 113), 10, 3),
            ("11 of row 2, 10 of none", falling(114, 114, 2_024), 11, 1),
            ("11 of row 1, 12 of the top flow", filling(334, 1_001), 11, 1),
            ("11 of row 64, 12 of row 1", filling(0, 334, *[0] * (most - 2), 1_001), 11, 1),
            ("12 of row 2, 11 of none", filling(0, 1_000 // 3, 1_000), 12, 1)):
        yield FlowFault(name, draft, number, segment)


def flow_fault_cases() -> Iterator[Case]:
    for fault in flow_faults():
        yield Case(fault.name, write(fault.draft), fault.number)


def flow_rivers() -> Iterator[Case]:
    """Named rivers whose flow changes, at the ends of what the tests allow."""
    def case(name: str, draft: Draft, exact: str = "brackets") -> Case:
        return Case(name, write(draft), ACCEPTED, exact)

    def twin(name: str, draft: Draft) -> Case:
        """Rows that all have the top flow: the listing is that of the river without them."""
        rows = [(start, draft.header.top_flow) for start in range(1, min(draft.header.M, MOST_FLOW_ROWS) + 1)]
        return Case(f"rows with the top flow: {name}", write(draft.with_flows(*rows)), ACCEPTED, "brackets",
                    twin=write(draft))

    base = plain()
    yield twin("plain", base)
    yield twin("the listing", listing_draft())
    yield twin("T10", two_segment_brook())
    yield twin("one step", brook(dt=2, Q=1_000, U=3_001))
    yield twin("64 steps", base.with_header(M=MOST_FLOW_ROWS, interval=7))
    yield case("a row at step 1", base.with_flows((1, 90_000)))
    yield case("a row at the last step", base.with_flows((6, 90_000)))
    yield case("a row at the last step, which is the first", brook(2, 0, 3_001).with_flows((1, 1_000)), "fractions")
    yield case("a row at every step", base.with_flows(*((start, 15_000 * start) for start in range(1, 7))))
    yield case("a row behind the last line shown", base.with_header(interval=4).with_flows((5, 90_000)))
    for river, flows in ((falling, (114, 2_023)), (narrowing, (200, 0)), (filling, (333, 0)), (halving, (100, 0))):
        most = [flows[row % 2] for row in range(1, MOST_FLOW_ROWS + 1)]
        yield case(f"64 rows, {river.__name__}", river(flows[0], *most))
    U = [Row(0, 1), Row(1, 2), Row(2, 5), Row(3, HIGHEST), Row(4, HIGHEST - 1), Row(6, 8)]
    full = one_reach(2, 10, 0, U, segments=2, start=7)
    yield case("e from a half to one whole and back", full.with_flows((1, 1_000), (3, 0), (4, 1_000), (7, 1)),
               "fractions")
    wide = one_reach(100, 10_000, 0, U, segments=4, A=1_000_000, D=1_000_000, start=HIGHEST)
    yield case("from no flow to the highest and back", wide.with_flows((2, HIGHEST_FLOW), (4, 0), (5, HIGHEST_FLOW)))
    rising = one_reach(1, 10_000, 0, U, segments=4, A=1_000_000, D=1_000_000, qin=1_000)
    yield case("a row's flow that rises to 100,000,000", rising.with_flows((1, 99_999_650)))
    yield case("the highest figures", above_the_highest().with_flows((1, 0), (2, 64_000), (5, 30_000), (9, 1)))
    day = [(start, 20_000 + 1_000 * min(start, 60 - start)) for start in range(1, 60, 3)]
    yield case("a day with snowmelt", base.with_header(M=60, interval=5).with_flows(*day))


# Bands


def band_marks(draft: Draft) -> Iterator[Case]:
    """Sheets with a section too many or too few for their mark, or with counts of bands for other reaches than there are."""
    sheet, reaches = write(draft), len(draft.reaches)
    begins = [offset(draft, f"count of bands of reach {reach}") for reach in range(1, reaches + 1)]
    end, gauges = begins[0], offset(draft, "count of flow rows")
    yield Case("OTR2 with bands", FLOW_MARK + sheet[len(MARK):], 4)
    yield Case("OTR2 with bands, dt 0", FLOW_MARK + write(draft.with_header(dt=0))[len(MARK):], 4)
    yield Case("OTR2 with a count of bands alone", FLOW_MARK + sheet[len(MARK):end + FIELD], 4)
    yield Case("OTR2 of the same river", FLOW_MARK + sheet[len(MARK):end], ACCEPTED)
    yield Case("OTR1 with flow rows and bands", MARK + sheet[len(MARK):], 4)
    yield Case("OTR3 without bands, dt 0", write(draft.with_header(dt=0))[:end], 2)
    yield Case("OTR3 without flow rows", sheet[:gauges] + sheet[end:], 3)     # a figure of a band stands as a count
    for reach, begin in enumerate(begins, 1):
        yield Case(f"OTR3 without the bands of reach {reach} and what follows", sheet[:begin], 2)
        left = reaches - reach + 1
        for counts, number in ((left - 1, 2), (left, ACCEPTED), (left + 1, 4)):
            yield Case(f"OTR3 with {counts} counts of 0 from reach {reach} on", sheet[:begin] + bytes(FIELD * counts), number)
    yield Case("another mark with bands", UNKNOWN_MARK + sheet[len(MARK):], 1)


def bands_of(*stretches: tuple[int, int]) -> list[Band]:
    """Bands with these lowest and highest flows; with their figures the plain river passes 11 and 12."""
    return [Band(low, high, 9_000 + 10 * at, 6_000 + at, 1_800 + at) for at, (low, high) in enumerate(stretches)]


def seams(count: int) -> list[tuple[int, int]]:
    """So many stretches one behind the other, over all flows; most of them where the plain river's flows are."""
    lows = [0, *(7_000 + 1_000 * at for at in range(count - 1))]
    return list(zip(lows, [*(low - 1 for low in lows[1:]), HIGHEST_FLOW]))


def good_tables() -> dict[str, list[Band]]:
    """Tables in which every flow is in one band."""
    top, full = HIGHEST_FLOW, seams(MOST_BANDS)
    return {
        "one band": bands_of((0, top)),
        "touching": bands_of((0, 20_149), (20_150, top)),
        "touching, in falling order": bands_of((20_150, top), (0, 20_149)),
        "the first of one flow": bands_of((0, 0), (1, top)),
        "the last of one flow": bands_of((0, top - 1), (top, top)),
        "the last of one flow, in falling order": bands_of((top, top), (0, top - 1)),
        "one flow between two": bands_of((20_151, top), (20_150, 20_150), (0, 20_149)),
        "four in another order": bands_of((20_000, 29_999), (30_000, top), (0, 9_999), (10_000, 19_999)),
        "32 bands": bands_of(*full),
        "32 bands in falling order": bands_of(*full[::-1]),
        "32 bands in another order": bands_of(*random.Random(32).sample(full, MOST_BANDS)),
        "31 bands of one flow each": bands_of((31, top), *((flow, flow) for flow in range(MOST_BANDS - 1))),
    }


def bad_tables() -> dict[str, list[Band]]:
    """Tables with each ground of 19."""
    top = HIGHEST_FLOW
    found = {
        "a gap of one": bands_of((0, 49), (51, top)),
        "a gap of one, in falling order": bands_of((51, top), (0, 49)),
        "overlapping by one": bands_of((0, 50), (50, top)),
        "overlapping by one, in falling order": bands_of((50, top), (0, 50)),
        "flow 0 in none": bands_of((1, top)),
        "flow 0 in none, two bands": bands_of((50, top), (1, 49)),
        "one short of the top": bands_of((0, top - 1)),
        "one short of the top, two bands": bands_of((50, top - 1), (0, 49)),
        "one flow": bands_of((0, 0)),
        "flow 0 twice": bands_of((0, 0), (0, top)),
        "the top twice": bands_of((0, top), (top, top)),
        "the top twice, in two bands that touch the third": bands_of((0, top - 1), (top, top), (top, top)),
        "the same band twice": bands_of((0, top), (0, top)),
        "a band inside another": bands_of((0, top), (50, 60)),
        "a band around another": bands_of((50, 60), (0, top)),
        "an overlap as wide as the gap": bands_of((0, 50), (50, 98), (100, top)),
        "an overlap as wide as the gap, in falling order": bands_of((100, top), (50, 98), (0, 50)),
        "a gap as wide as the band that stands twice": bands_of((0, 49), (0, 49), (100, top)),
        "an overlap of the first and the last on the sheet": bands_of((0, 99), (200, top), (99, 199)),
        "a gap behind the first on the sheet": bands_of((0, 98), (200, top), (100, 199)),
        "reversed over all flows": bands_of((top, 0)),
        "reversed, in the other's place": bands_of((0, 49), (top, 50)),
        "reversed, where there is nothing to fill": bands_of((0, 49), (51, 50), (50, top)),
        "reversed, beside one over all": bands_of((0, top), (60, 50)),
        "a lowest flow out of range, beside one over all": bands_of((0, top), (top + 1, top + 1)),
        "a highest flow out of range": bands_of((0, top + 1)),
        "the highest field": bands_of((0, HIGHEST_FIELD)),
        "from one above the top to the highest field": bands_of((0, top), (top + 1, HIGHEST_FIELD)),
    }
    for name, allowed in BAND_RANGES.items():
        for figure in (0, allowed.high + 1, 2 ** 31, HIGHEST_FIELD):
            if not allowed.holds(figure):
                first, second = bands_of((50, top), (0, 49))
                found[f"{name} {figure} in the band of no segment"] = [first, second._replace(**{name: figure})]
                found[f"{name} {figure} in every segment's band"] = [first._replace(**{name: figure}), second]
    for at, (low, high) in enumerate(full := seams(MOST_BANDS)):
        for less, what in ((1, "a gap"), (-1, "an overlap")):
            if high < top:
                wrong = [*full[:at], (low, high - less), *full[at + 1:]]
                found[f"{what} behind band {at + 1} of 32"] = bands_of(*(wrong if at % 2 else wrong[::-1]))
    return found


class BandFault(NamedTuple):
    """A sheet that 19 refuses, and the reach that it names."""

    name: str
    draft: Draft
    reach: int


def band_faults() -> Iterator[BandFault]:
    """Each ground of 19 in a reach of three, and every two kinds of them in two reaches: the lowest reach decides."""
    draft, bad, good = plain_bands(), bad_tables(), good_tables()["one band"]
    for at, (name, table) in enumerate(bad.items()):
        yield BandFault(f"reach {1 + at % 3}: {name}", draft.with_table(at % 3, table), 1 + at % 3)
    kinds = [bad[name] for name in ("A 0 in the band of no segment", "reversed over all flows", "overlapping by one",
                                    "a gap of one", "one short of the top")]
    for (lower, higher), here, there in product(((1, 2), (2, 3), (1, 3)), kinds, kinds):
        tables = {lower: here, higher: there}
        yield BandFault(f"reaches {lower} and {higher}",
                        draft.with_bands(*(tables.get(reach, good) for reach in (1, 2, 3))), lower)


def band_fault_cases() -> Iterator[Case]:
    for fault in band_faults():
        yield Case(fault.name, write(fault.draft), 19)


Figures = tuple[int, int, int]      # A, D and AS of a band


def parted(cut: int, low: Figures, high: Figures) -> list[Band]:
    """Two bands in falling order: one from the cut on, one below it."""
    return [Band(cut, HIGHEST_FLOW, *high), Band(0, cut - 1, *low)]


def two_brooks(top_flow: int, row_flow: int, first: list[Band], second: list[Band]) -> Draft:
    """The brook with dt 1 as two reaches of a segment each, with these bands."""
    draft = brook(1, top_flow, 3_000, 2)
    return replace(draft, reaches=draft.reaches * 2, gauges=[1, 2]).with_flows((1, row_flow)).with_bands(first, second)


def band_flow_faults() -> Iterator[FlowFault]:
    """Tests 10 to 12 where a band's figures decide: with the reach's own the river passes 11 and 12."""
    fine = (100, 50, 100)           # 11 allows 1,000 in a segment of the brook, and T is at most a half with dt 1
    # 11 allows 500 with half the dispersion, and nothing without any
    halved = parted(501, fine, (100, 25, 100))
    yield FlowFault("11 by the band of the top flow", brook(1, 501).with_flows((1, 500)).with_bands(halved), 11, 1)
    yield FlowFault("11 by the band of a row", brook(1, 500).with_flows((1, 501)).with_bands(halved), 11, 1)
    for name, D, segment in (("of the second segment's own", 1_000, 2), ("of the segment below", 976, 1)):
        table = parted(950, (1_000, 0, 1_000), (1_000, D, 1_000))       # flows of 977 and 931
        yield FlowFault(f"11 by the band {name}", slope(1_000, 2).with_flows((1, 2_000)).with_bands(table), 11, segment)
    # 12 by A in e, by A in l beside e, by AS in b, all with dt 2
    for name, cut, low, high, changes in (
            ("e", 500, fine, (50, 100, 100), {}), ("l", 5, (10, 25, 100), (1, 25, 100), {"qin": 60_000, "qout": 60_000}),
            ("b", 500, fine, (100, 50, 1), {"ALPHA": 10_100_000})):
        for where, flows in (("the top flow", (cut, cut - 1)), ("a row", (cut - 1, cut))):
            draft = brook(2, flows[0], **changes).with_flows((1, flows[1])).with_bands(parted(cut, low, high))
            yield FlowFault(f"12 by the band of {where}, in {name}", draft, 12, 1)
    # the first flow at fault decides, and a test is made for all flows before the next
    for number, bad in ((11, (100, 0, 100)), (12, (20, 250, 100))):
        above, below = parted(500, fine, bad), parted(500, bad, fine)       # the bad band above the cut, and below it
        yield FlowFault(f"{number}: the top flow in segment 2, a row in segment 1", two_brooks(10, 600, above, below), number, 2)
        yield FlowFault(f"{number}: the top flow in segment 1, a row in segment 2", two_brooks(600, 10, above, below), number, 1)
    still = parted(500, (100, 0, 100), (20, 250, 100))
    yield FlowFault("11 by the band of a row, 12 by that of the top flow", two_brooks(600, 10, still, still), 11, 1)
    table = parted(500, (1_000, 1_000, 1_000), (1_000, 0, 1_000))
    yield FlowFault("10 of a row, 11 by the band of the top flow", slope(1_000, 2).with_flows((1, 68)).with_bands(table),
                    10, 2)


def band_flow_cases() -> Iterator[Case]:
    for fault in band_flow_faults():
        yield Case(fault.name, write(fault.draft), fault.number)


def by_segment(draft: Draft, top_flow: int) -> Draft:
    """What the river is while this flow is at the top, without bands: every segment a reach, with its band's figures."""
    tables = [(reach, bands) for reach, bands in zip(draft.reaches, draft.bands) for _ in range(reach.segments)]
    reaches = []
    for (reach, bands), gain in zip(tables, middle_gains(draft)):
        Q = math.floor(top_flow + gain)
        found = [band for band in bands if Q in range(band.lowest, band.highest + 1)]
        A, D, AS = found[0][2:] if bands else (reach.A, reach.D, reach.AS)
        reaches.append(reach._replace(segments=1, A=A, D=D, AS=AS))
    return replace(draft, reaches=reaches, bands=None).with_header(top_flow=top_flow)


def steady(draft: Draft) -> Draft:
    """The same with the top flow in every flow row."""
    return draft.with_flows(*((row.start, draft.header.top_flow) for row in draft.flow_rows))


def band_twins(rng: random.Random, count: int) -> Iterator[Case]:
    """Rivers with bands whose flow stays: each prints what the river by segments prints, which has no bands."""
    for _ in range(count):
        draft = steady(good_river(rng, rng.randint(1, MOST_REACHES), rng.randint(1, 6), draw_band_river))
        yield Case(describe(draft), write(draft), ACCEPTED, twin=write(by_segment(draft, draft.header.top_flow)))


def own_bands(draft: Draft, stretches: list[tuple[int, int]]) -> Draft:
    """Bands with these flows and the own figures of each reach, whose fields have other figures."""
    tables = [[Band(low, high, reach.A, reach.D, reach.AS) for low, high in stretches] for reach in draft.reaches]
    others = [reach._replace(A=1_000_000 - reach.A, D=1_000_000 - reach.D, AS=1_000_000 - reach.AS + 1)
              for reach in draft.reaches]
    return replace(draft, reaches=others).with_bands(*tables)


def band_rivers() -> Iterator[Case]:
    """Named rivers with bands: beside the same without bands, and at the ends of what the tests allow."""
    def case(name: str, draft: Draft, exact: str = "brackets") -> Case:
        return Case(name, write(draft), ACCEPTED, exact)

    def twin(name: str, draft: Draft, other: Draft) -> Case:
        return Case(name, write(draft), ACCEPTED, "brackets", twin=write(other))

    top, every = HIGHEST_FLOW, [(0, HIGHEST_FLOW)]
    listing = listing_draft().with_flows((1, 0), (2, 0))
    for name, draft in (("plain", plain_flows()), ("the listing", listing), ("falling", falling(114, 2_023, 114)),
                        ("narrowing", narrowing(200, 0, 200)), ("halving", halving(100, 0, 100))):
        yield twin(f"no bands: {name}", draft.with_bands(), draft)
        kept = [[Band(0, top, reach.A, reach.D, reach.AS)] for reach in draft.reaches]
        yield twin(f"one band of the reach's own figures: {name}", draft.with_bands(*kept), draft)
        for what, stretches in (("one band", every), ("32 bands", seams(MOST_BANDS)[::-1])):
            yield twin(f"{what}, and other figures of the reach: {name}", own_bands(draft, stretches), draft)

    # any order; segments of one reach in several bands; AD of a neighbour by its own band
    base = plain_bands()
    yield case("the plain river with bands", base)
    for name, table in good_tables().items():
        draft = base.with_bands(table, table[::-1], table)
        yield twin(f"in every reach: {name}", draft, base.with_bands(table[::-1], table, table))
        yield twin(f"the flow stays: {name}", steady(draft), by_segment(steady(draft), 20_000))
    falls = replace(slope(1_000, 6), gauges=[1, 2, 3, 4, 5, 6]).with_flows((1, 1_000))      # 977, 931, 886, 840, 795, 750
    for lows in ((795, 796, 886, 932), (751, 795, 840, 887, 931), (886,), (887,), (930, 931, 932)):
        areas = iter(range(1_000, 9_000, 700))
        draft = falls.with_bands(covering(lows, lambda: (A := next(areas), 1_200_000 // A, 900 + A % 7)))
        yield twin(f"one reach that loses water, bands from {lows}", draft, by_segment(draft, 1_000))

    # a segment changes its band at a row: e, g, l and b have other figures on the two sides of the step
    brooks = brook(2, 0, 3_000, 6, ALPHA=30_000_000, qin=9_000, qout=9_000, CL=70_000, LAMHAT=40_000_000, LAMHAT2=90_000_000,
                   RHO=900, Kd=3, CB=5_000, start=800)
    edge = parted(500, (150, 40, 300), (200, 50, 120))
    for flows in ((499, 500), (500, 499), (0, 500, 0, 500), (500, 0)):
        rows = list(enumerate(flows[1:], 2))
        yield case(f"flows of {flows} at an edge", brooks.with_header(top_flow=flows[0]).with_flows(*rows).with_bands(edge),
                   "fractions")
    yield case("two segments, with D 0 below the edge",
               two_brooks(0, 500, parted(500, (100, 0, 100), (120, 60, 100)), parted(500, (90, 0, 80), (100, 50, 100))),
               "fractions")

    # at the ends: flows 0 and 100,000,000 have bands of their own; what no flow falls into does not count
    U = [Row(0, 1), Row(1, 2), Row(2, 5), Row(3, HIGHEST), Row(4, HIGHEST - 1), Row(6, 8)]
    wide = one_reach(100, 10_000, 0, U, segments=4, A=1, D=0, start=HIGHEST).with_flows((2, top), (4, 0), (5, top))
    yield case("from no flow to the highest and back", wide.with_bands(
        [Band(1, top - 1, 1, 0, 1), Band(top, top, 1_000_000, 1_000_000, 1), Band(0, 0, 1_000_000, 7, 9)]))
    whole = brook(2, 999, 3_000, 3).with_flows((2, 1_000)).with_bands(parted(1_000, (1_000_000, 1, 1), (100, 50, 100)))
    yield case("e is one whole in a band", whole, "fractions")
    yield case("b is one whole in a band", brook(2, 499, 3_000, 3, ALPHA=10_000_000).with_flows((2, 500)).with_bands(
        parted(500, (100, 50, 100), (100, 50, 1))), "fractions")
    yield case("11 just passes in two bands", brook(1, 500, 3_000, 3).with_flows((2, 1_000)).with_bands(
        parted(501, (100, 25, 100), (100, 50, 100))), "fractions")


def work(sheet: bytes) -> int:
    """Segments times steps of an accepted sheet, else 0."""
    try:
        found = model.read_sheet(sheet)
    except model.Refusal:
        return 0
    return model.segment_count(found.reaches) * found.header.M


def changed(rng: random.Random, kind: str, at: int, sheet: bytes) -> bytes:
    """One change of a sheet, at an offset."""
    if kind == "a bit":
        return sheet[:at] + bytes([sheet[at] ^ 1 << rng.randrange(8)]) + sheet[at + 1:]
    if kind == "a byte":
        return sheet[:at] + rng.randbytes(1) + sheet[at + 1:]
    if kind == "a field":
        figure = rng.choice((0, 1, rng.randint(0, HIGHEST_FIELD)))
        return put(sheet, max(len(MARK), at // FIELD * FIELD), figure)
    stretch = rng.choice((1, FIELD, FIELD * len(Band._fields), FIELD * len(Reach._fields)))
    if kind == "a stretch lost":
        return sheet[:at] + sheet[at + stretch:]
    if kind == "a stretch doubled":
        return sheet[:at] + sheet[max(0, at - stretch):]
    return sheet[:at]


def changed_sheets(rng: random.Random, count: int, most: int = 20_000, draw: Drawer = draw_river) -> Iterator[Case]:
    """A random river's sheet with one change; one that raises M far is left out."""
    kinds = ("a bit", "a byte", "a byte", "a field", "a field", "a stretch lost", "a stretch doubled", "a cut")
    made = 0
    while made < count:
        draft = good_river(rng, rng.randint(1, 6), rng.randint(1, 4), draw)
        before = write(draft)
        kind, at = rng.choice(kinds), rng.randrange(len(before))
        sheet = changed(rng, kind, at, before)
        if work(sheet) <= most:
            made += 1
            yield Case(f"{kind} at {at}: {describe(draft)}", sheet)


def paused_sheets(rng: random.Random, draft: Draft) -> Iterator[Case]:
    """Sheets that arrive in pieces: the answer is that of the whole sheet."""
    sheet = write(draft)
    for pauses in ((1,), (3,), (4,), (30,), (100, 101), (len(sheet) - 1,), (len(sheet),), (4, 24, 28, 200)):
        yield Case(f"pauses at {pauses}", sheet, ACCEPTED, "", pauses)
    yield Case("a byte added after a pause", sheet + b"\0", 4, "", (len(sheet),))
    yield Case("cut, after a pause", sheet[:-1], 2, "", (len(sheet) - 9,))
    full = write(replace(fullest(rng), rows=[Row(0, 9)]).with_flows((1, 9_000)).with_header(M=1, interval=1))
    yield Case("a long sheet in pieces", full, ACCEPTED, "", (1_000, 4_096, 4_200, 40_000))
