"""The river of document 01, with requests 1 to 3 and 5 to 7 of document 02, in plain whole numbers: the one in Python.

The parts stand in document 01's order: the sheet and its tests, flow and
half-step numbers, the sweep, the calls, the listing; before the listing stand
the forecast and the calls of several rivers on shared lists.  Every division is exact
or rounded as the document says; there is no floating point here.  The tools
take ranges and verdicts from here, the tests the figures that they compare.
"""
from __future__ import annotations

from collections.abc import Iterable, Iterator
from dataclasses import dataclass
from functools import lru_cache
from itertools import accumulate
from typing import NamedTuple, Optional

MARK = b"OTR1"
FLOW_MARK = b"OTR2"                 # of a sheet with flow rows
BAND_MARK = b"OTR3"                 # of a sheet with flow rows and bands
MARKS = (MARK, FLOW_MARK, BAND_MARK)
FIELD = 4                           # bytes of a field: unsigned 32-bit, little-endian
ONE_WHOLE = 2 ** 30                 # S in the equations
HIGHEST = 1_000_000_000             # a concentration, ng/L
HIGHEST_RATE = 1_000_000_000        # in 10^-9 per second
HIGHEST_FLOW = 100_000_000          # mL/s, also mL/s per km
HIGHEST_KD = 1_000                  # millionths of m3/g
MOST_SEGMENTS = 1_024
MOST_STEPS = 100_000
MOST_REACHES = 64
MOST_ROWS = 256
MOST_GAUGES = 32
MOST_FLOW_ROWS = 64
MOST_BANDS = 32                     # of a reach
MOST_RIVERS = 8                     # that share lists
BLOCK = 16                          # segments that have one highest channel figure; a river's last block may have fewer
LATERAL = 100_000                   # cm in a km: lateral flow is per km, dx in cm
RATE_UNIT = 10 ** 9                 # rates are in 10^-9 per second
KD_UNIT = 10 ** 6                   # Kd is in millionths of m3/g

Place = Optional[tuple[str, int]]   # ("reach" | "segment" | "row", number from 1), or nothing


class Refusal(Exception):
    """A refusal carries its number and its place."""

    def __init__(self, number: int, place: Place = None) -> None:
        super().__init__(number, place)
        self.number = number
        self.place = place


def refuse_first(number: int, kind: str, faults: Iterable[bool]) -> None:
    """The place is the lowest at fault; places count from 1."""
    for at, fault in enumerate(faults, 1):
        if fault:
            raise Refusal(number, (kind, at))


# The river sheet


class Header(NamedTuple):
    dt: int
    dx: int
    M: int
    interval: int
    top_flow: int


class Reach(NamedTuple):
    segments: int
    D: int
    A: int
    AS: int
    ALPHA: int
    qin: int
    qout: int
    CL: int
    LAMBDA: int
    LAMBDA2: int
    LAMHAT: int
    LAMHAT2: int
    RHO: int
    Kd: int
    CB: int
    start: int

    @property
    def AD(self) -> int:
        """AD is A x D of a segment."""
        return self.A * self.D


class Row(NamedTuple):
    start: int
    concentration: int


class FlowRow(NamedTuple):
    start: int
    top_flow: int


class Band(NamedTuple):
    """A, D and AS of a reach where a segment's flow is from the lowest to the highest."""

    lowest: int
    highest: int
    A: int
    D: int
    AS: int

    def holds(self, Q: int) -> bool:
        return self.lowest <= Q <= self.highest


LONGEST_SHEET = len(MARK) + FIELD * (len(Header._fields) + 1 + MOST_REACHES * len(Reach._fields)
                                     + 1 + MOST_ROWS * len(Row._fields) + 1 + MOST_GAUGES
                                     + 1 + MOST_FLOW_ROWS * len(FlowRow._fields)
                                     + MOST_REACHES * (1 + MOST_BANDS * len(Band._fields)))


class Range(NamedTuple):
    low: int
    high: int

    def holds(self, figure: int) -> bool:
        return self.low <= figure <= self.high


CONCENTRATION = Range(0, HIGHEST)
RATE = Range(0, HIGHEST_RATE)
FLOW = Range(0, HIGHEST_FLOW)
AREA = Range(1, 1_000_000)

REACH_RANGES = {
    "segments": Range(1, MOST_SEGMENTS),
    "D": Range(0, 1_000_000),
    "A": AREA,
    "AS": AREA,
    "ALPHA": RATE,
    "qin": FLOW,
    "qout": FLOW,
    "CL": CONCENTRATION,
    "LAMBDA": RATE,
    "LAMBDA2": RATE,
    "LAMHAT": RATE,
    "LAMHAT2": RATE,
    "RHO": Range(0, 1_000_000),
    "Kd": Range(0, HIGHEST_KD),
    "CB": CONCENTRATION,
    "start": CONCENTRATION,
}


BAND_RANGES = {"lowest": FLOW, "highest": FLOW, **{name: REACH_RANGES[name] for name in ("A", "D", "AS")}}


def header_ranges(M: int) -> dict[str, Range]:
    """Header: dt, dx, steps M, print interval (1 to M), flow at the top."""
    return {"dt": Range(1, 3_600), "dx": Range(10, 10_000), "M": Range(1, MOST_STEPS),
            "interval": Range(1, M), "top_flow": FLOW}


def in_ranges(figures: Header | Reach | Band, ranges: dict[str, Range]) -> bool:
    return all(ranges[name].holds(figure) for name, figure in figures._asdict().items())


@dataclass
class Sheet:
    """What the walk finds; those that begin somewhere do so at the offset of the first, flow rows at 0 in OTR1.

    There is a list of bands for each reach, with none in it where the mark has no bands.
    """

    header: Header
    reaches: list[Reach]
    rows: list[Row]
    gauges: list[int]
    flow_rows: list[FlowRow]
    bands: list[list[Band]]
    rows_begin: int
    gauges_begin: int
    flow_rows_begin: int
    end: int


def field_at(sheet: bytes, at: int) -> int:
    """All fields are unsigned 32-bit, little-endian."""
    return int.from_bytes(sheet[at:at + FIELD], "little")


class Walk:
    """2 and 3 are found on one walk from the front, and the one met first decides."""

    def __init__(self, sheet: bytes) -> None:
        self.sheet = sheet
        self.at = len(MARK)

    def field(self) -> int:
        """2. The sheet ends before the last record of its last section is complete."""
        if self.at + FIELD > len(self.sheet):
            raise Refusal(2)
        figure = field_at(self.sheet, self.at)
        self.at += FIELD
        return figure

    def fields(self, count: int) -> list[int]:
        return [self.field() for _ in range(count)]

    def count(self, most: int, least: int = 1) -> int:
        """3. A count is outside its range."""
        count = self.field()
        if not least <= count <= most:
            raise Refusal(3)
        return count


def has_bands(sheet: bytes) -> bool:
    """A sheet marked OTR3 is an OTR2 sheet with a fifth section: for each reach a count, then that many bands."""
    return sheet[:len(BAND_MARK)] == BAND_MARK


def has_flow_rows(sheet: bytes) -> bool:
    """A sheet marked OTR2 has a fourth section after the gauges, and OTR3 is an OTR2 sheet."""
    return sheet[:len(FLOW_MARK)] == FLOW_MARK or has_bands(sheet)


def walk(front: Walk) -> Sheet:
    """Header, then reaches, boundary rows, gauges, from OTR2 on flow rows, in OTR3 each reach's bands, each after its count."""
    header = Header(*front.fields(len(Header._fields)))
    reaches = [Reach(*front.fields(len(Reach._fields))) for _ in range(front.count(MOST_REACHES))]
    row_count = front.count(MOST_ROWS)
    rows_begin = front.at
    rows = [Row(*front.fields(len(Row._fields))) for _ in range(row_count)]
    gauge_count = front.count(MOST_GAUGES)
    gauges_begin = front.at
    gauges = front.fields(gauge_count)
    flow_rows, flow_rows_begin = [], 0
    if has_flow_rows(front.sheet):
        flow_row_count = front.count(MOST_FLOW_ROWS)
        flow_rows_begin = front.at
        flow_rows = [FlowRow(*front.fields(len(FlowRow._fields))) for _ in range(flow_row_count)]
    bands: list[list[Band]] = [[] for _ in reaches]
    if has_bands(front.sheet):
        bands = [[Band(*front.fields(len(Band._fields))) for _ in range(front.count(MOST_BANDS, least=0))]
                 for _ in reaches]
    return Sheet(header, reaches, rows, gauges, flow_rows, bands, rows_begin, gauges_begin, flow_rows_begin, front.at)


def row_faults(rows: list[Row], M: int) -> Iterator[bool]:
    """The first starts at 0, starts rise strictly, none exceeds M; a row out of order is the later."""
    for at, row in enumerate(rows):
        in_order = row.start > rows[at - 1].start if at else row.start == 0
        yield not (in_order and row.start <= M and CONCENTRATION.holds(row.concentration))


def gauge_faults(gauges: list[int], segments: int) -> Iterator[bool]:
    """Segment numbers, strictly rising, from 1 to the river's last."""
    for at, gauge in enumerate(gauges):
        in_order = at == 0 or gauge > gauges[at - 1]
        yield not (in_order and 1 <= gauge <= segments)


def flow_row_faults(flow_rows: list[FlowRow], M: int) -> Iterator[bool]:
    """Starts from 1 to M and strictly rising, top flows in their old range."""
    for at, row in enumerate(flow_rows):
        in_order = at == 0 or row.start > flow_rows[at - 1].start
        yield not (in_order and 1 <= row.start <= M and FLOW.holds(row.top_flow))


def band_fault(band: Band) -> bool:
    """A band is out of range or reversed."""
    return not in_ranges(band, BAND_RANGES) or band.lowest > band.highest


def stretches(bands: list[Band]) -> list[tuple[Range, list[int]]]:
    """0 to 100,000,000 cut where a band begins or has ended: each stretch of flows, with the numbers of its bands.

    A stretch lies in a band whole or not at all.
    """
    ends = {cut for band in bands for cut in (band.lowest, band.highest + 1) if FLOW.holds(cut)}
    cuts = sorted(ends | {FLOW.low, FLOW.high + 1})
    return [(Range(low, end - 1), [number for number, band in enumerate(bands, 1) if band.holds(low)])
            for low, end in zip(cuts, cuts[1:])]


def bands_fault(bands: list[Band]) -> bool:
    """A band out of range or reversed, two with a common flow, or a flow that has none; a count of 0 is no fault."""
    if any(band_fault(band) for band in bands):
        return True
    return bool(bands) and any(len(numbers) != 1 for _, numbers in stretches(bands))


def segment_count(reaches: list[Reach]) -> int:
    return sum(reach.segments for reach in reaches)


def read_sheet(sheet: bytes) -> Sheet:
    """Tests 1 to 9, then 16 and 19, each over the whole river before the next."""
    if sheet[:len(MARK)] not in MARKS:                                      # 1
        raise Refusal(1)
    found = walk(Walk(sheet))                                               # 2 and 3
    if len(sheet) > found.end:                                              # 4
        raise Refusal(4)
    if not in_ranges(found.header, header_ranges(found.header.M)):          # 5
        raise Refusal(5)
    refuse_first(6, "reach", (not in_ranges(reach, REACH_RANGES) for reach in found.reaches))
    segments = segment_count(found.reaches)
    if segments > MOST_SEGMENTS:                                            # 7
        raise Refusal(7)
    refuse_first(8, "row", row_faults(found.rows, found.header.M))
    refuse_first(9, "row", gauge_faults(found.gauges, segments))
    refuse_first(16, "row", flow_row_faults(found.flow_rows, found.header.M))
    refuse_first(19, "reach", (bands_fault(bands) for bands in found.bands))
    return found


def section_end(sheet: bytes, at: int, width: int) -> int:
    """Where a section ends whose count stands there, on any bytes; those past the end count as 0."""
    return at + FIELD * (1 + width * field_at(sheet, at))


def row_count_at(sheet: bytes) -> int:
    """Where the count of boundary rows stands on any bytes."""
    return section_end(sheet, len(MARK) + FIELD * len(Header._fields), len(Reach._fields))


def gauge_count_at(sheet: bytes) -> int:
    return section_end(sheet, row_count_at(sheet), len(Row._fields))


def flow_row_count_at(sheet: bytes) -> int:
    """Where the count of flow rows stands, from OTR2 on."""
    return section_end(sheet, gauge_count_at(sheet), 1)


def flow_in_force(sheet: bytes, step_number: int) -> int:
    """The flow at a step, by its row's number: the last row starting at or before it, else 0, the top flow.

    Of any bytes: the highest-numbered row, of as many as the count says, whose start is at most the step.
    """
    begin = flow_row_count_at(sheet)
    number = field_at(sheet, begin) if has_flow_rows(sheet) else 0
    while number and field_at(sheet, begin + FIELD + FIELD * len(FlowRow._fields) * (number - 1)) > step_number:
        number -= 1
    return number


# Flow and half-step numbers


def nearest(numerator: int, denominator: int) -> int:
    """To the nearest, a half going up."""
    return (2 * numerator + denominator) // (2 * denominator)


def parts(numerator: int, denominator: int) -> int:
    """Each number is its fraction times one whole, to the nearest, a half going up."""
    return nearest(numerator * ONE_WHOLE, denominator)


def reach_of_segments(reaches: list[Reach]) -> list[Reach]:
    """The reach of each segment, from the top; A, D and AS as the reach's own fields have them."""
    return [reach for reach in reaches for _ in range(reach.segments)]


def headers(found: Sheet) -> list[Header]:
    """The header with each flow of the sheet at the top in turn: the top flow, then every row's."""
    return [found.header, *(found.header._replace(top_flow=row.top_flow) for row in found.flow_rows)]


def gains(own: list[Reach]) -> list[int]:
    """Twice the sum of qin - qout at each segment's middle: of all segments before it, and half its own."""
    net = [reach.qin - reach.qout for reach in own]
    return [2 * before + here for before, here in zip(accumulate(net, initial=0), net)]


def flows_with(header: Header, twice: list[int]) -> list[int]:
    """The flow at each segment's middle: top flow plus the gain down to there, given twice, rounded down once."""
    top, dx = header.top_flow, header.dx
    return [top + gain * dx // (2 * LATERAL) for gain in twice]


def flows(header: Header, own: list[Reach]) -> list[int]:
    return flows_with(header, gains(own))


def reach_at(reach: Reach, bands: list[Band], Q: int) -> Reach:
    """The reach as a segment with this flow has it: A, D and AS of the band that holds the flow, its own without bands."""
    if not bands:
        return reach
    band, = (band for band in bands if band.holds(Q))
    return reach._replace(A=band.A, D=band.D, AS=band.AS)


def reaches_at(found: Sheet, Q: list[int]) -> list[Reach]:
    """The reach of each segment as it is at the segment's own flow; the flows are in range, and 19 has passed."""
    tables = [(reach, bands) for reach, bands in zip(found.reaches, found.bands) for _ in range(reach.segments)]
    return [reach_at(reach, bands, flow) for (reach, bands), flow in zip(tables, Q)]


def dispersion_around(own: list[Reach]) -> list[tuple[int, int, int]]:
    """AD above, own and below of each segment, at one flow; above the first and below the last, its own."""
    AD = [reach.AD for reach in own]
    return list(zip([AD[0]] + AD[:-1], AD, AD[1:] + [AD[-1]]))


class Numbers(NamedTuple):
    """The half-step numbers of one segment."""

    e: int
    g: int
    l: int
    a: int
    b: int
    k: int
    ks: int
    h: int
    m: int
    s: int

    @property
    def T(self) -> int:
        return self.e + self.g + self.l + self.a + self.k + self.s

    @property
    def V(self) -> int:
        return self.b + self.ks + self.m

    def over_one_whole(self) -> bool:
        """T, V or h exceeds one whole."""
        return self.T > ONE_WHOLE or self.V > ONE_WHOLE or self.h > ONE_WHOLE


class Segment(NamedTuple):
    """What a loading gives of one segment: half-step numbers, CL, CB, Kd and start figure."""

    numbers: Numbers
    CL: int
    CB: int
    Kd: int
    start: int


SET = Numbers._fields               # the ten lists of a set, by name
COLUMNS = (*SET, *Segment._fields[1:])


def rate_number(dt: int, rate: int) -> int:
    """a = dt x ALPHA / (2 x 10^9); k, ks, h, m as a."""
    return parts(dt * rate, 2 * RATE_UNIT)


@lru_cache(MOST_REACHES * MOST_BANDS)
def reach_numbers(dt: int, reach: Reach) -> dict[str, int]:
    """The numbers that depend on the flow by the band alone, by the document's fractions."""
    return dict(
        l=parts(dt * reach.qin, 2 * LATERAL * reach.A),
        a=rate_number(dt, reach.ALPHA),
        b=parts(dt * reach.ALPHA * reach.A, 2 * RATE_UNIT * reach.AS),
        k=rate_number(dt, reach.LAMBDA),
        ks=rate_number(dt, reach.LAMBDA2),
        h=rate_number(dt, reach.LAMHAT),
        m=rate_number(dt, reach.LAMHAT2),
        s=parts(dt * reach.LAMHAT * reach.RHO * reach.Kd, 2 * RATE_UNIT * KD_UNIT))


def numbers(header: Header, reach: Reach, Q: int, AD: tuple[int, int, int], last: bool) -> Numbers:
    """The half-step numbers of one segment, by the document's fractions."""
    dt, dx = header.dt, header.dx
    above, own, below = AD
    space = 4 * reach.A * dx ** 2
    return Numbers(e=parts(dt * (Q * dx + above + own), space),
                   g=0 if last else parts(dt * (own + below - Q * dx), space),
                   **reach_numbers(dt, reach))


def test_flows(flows_of: list[list[int]]) -> None:
    """10, for the top flow and then for every row's in turn."""
    for Q in flows_of:
        refuse_first(10, "segment", (not FLOW.holds(flow) for flow in Q))


def test_dispersion(dx: int, flows_of: list[list[int]], AD_of: list[list[tuple[int, int, int]]]) -> None:
    """11, for each flow in turn with AD as it is at that flow."""
    for Q, AD in zip(flows_of, AD_of):
        refuse_first(11, "segment", (flow * dx > here + below for flow, (_, here, below) in zip(Q, AD)))


def set_of(header: Header, own: list[Reach], Q: list[int], AD: list[tuple[int, int, int]]) -> list[Numbers]:
    """One flow's set: the half-step numbers of every segment, its reach and AD as they are at that flow."""
    last = len(own) - 1
    return [numbers(header, reach, Q[at], AD[at], at == last) for at, reach in enumerate(own)]


def rivers_of(found: Sheet) -> list[list[Segment]]:
    """Tests 10 to 12, each for all flows before the next; then the river's segments with each flow's set."""
    own = reach_of_segments(found.reaches)
    flows_of = [flows(header, own) for header in headers(found)]
    test_flows(flows_of)
    reaches_of = [reaches_at(found, Q) for Q in flows_of]
    AD_of = [dispersion_around(reaches) for reaches in reaches_of]
    test_dispersion(found.header.dx, flows_of, AD_of)
    sets = [set_of(found.header, *course) for course in zip(reaches_of, flows_of, AD_of)]
    for each in sets:
        refuse_first(12, "segment", (part.over_one_whole() for part in each))
    return [[Segment(part, reach.CL, reach.CB, reach.Kd, reach.start) for part, reach in zip(each, own)]
            for each in sets]


# The sweep


class Pair(NamedTuple):
    """What a step is lent of one segment: the numbers of its old side and of its new side, CL and CB."""

    old: Numbers
    new: Numbers
    CL: int
    CB: int


def channel_right_side(pair: Pair, C: int, Z: int, W: int, above: int, below: int) -> int:
    """(S-T)C + eCabove + gCbelow + aZ + sW + 2lCL, of the old numbers; 2l is the old number plus the new."""
    old = pair.old
    return ((ONE_WHOLE - old.T) * C + old.e * above + old.g * below
            + old.a * Z + old.s * W + (old.l + pair.new.l) * pair.CL)


def storage_right_side(pair: Pair, C: int, Z: int) -> int:
    """(S-V)Z + bC + 2mCB, of the old numbers; 2m is the old number plus the new."""
    old = pair.old
    return (ONE_WHOLE - old.V) * Z + old.b * C + (old.m + pair.new.m) * pair.CB


def sediment_right_side(pair: Pair, C: int, W: int) -> int:
    """(S-h)W + hC, of the old numbers."""
    return (ONE_WHOLE - pair.old.h) * W + pair.old.h * C


def full_divisor(new: Numbers) -> int:
    """F = S+e+g+l+k + a(S+ks+m)/(S+V) + sS/(S+h), its two quotients divided singly."""
    return (ONE_WHOLE + new.e + new.g + new.l + new.k
            + nearest(new.a * (ONE_WHOLE + new.ks + new.m), ONE_WHOLE + new.V)
            + nearest(new.s * ONE_WHOLE, ONE_WHOLE + new.h))


class Swept(NamedTuple):
    """The new figures, and the two working lists of the downward pass."""

    C: list[int]
    Z: list[int]
    W: list[int]
    p: list[int]
    y: list[int]


def downward(pairs: list[Pair], C: list[int], Z: list[int], W: list[int],
             U: int, new_U: int) -> tuple[list[int], list[int]]:
    """H = F in segment 1, else F - (e x p above)/S; p = gS/H; y = (R + e x y above)/H: by the new numbers.

    P and N divide the old numerator by the new S+V and S+h; in R, aP, sN and eU' take the new numbers.
    """
    p: list[int] = []
    y: list[int] = []
    for at, pair in enumerate(pairs):
        new = pair.new
        above = C[at - 1] if at else U
        below = C[at + 1] if at + 1 < len(pairs) else 0
        P = nearest(storage_right_side(pair, C[at], Z[at]), ONE_WHOLE + new.V)
        N = nearest(sediment_right_side(pair, C[at], W[at]), ONE_WHOLE + new.h)
        R = channel_right_side(pair, C[at], Z[at], W[at], above, below) + new.a * P + new.s * N
        H = full_divisor(new)
        if at:
            H -= nearest(new.e * p[at - 1], ONE_WHOLE)
            R += new.e * y[at - 1]
        else:
            R += new.e * new_U
        p.append(nearest(new.g * ONE_WHOLE, H))
        y.append(nearest(R, H))
    return p, y


def upward(p: list[int], y: list[int]) -> list[int]:
    """C' = y in the last, else y + (p x C' below)/S; when the pass is over, HIGHEST at most."""
    new_C = list(y)
    for at in range(len(y) - 2, -1, -1):
        new_C[at] += nearest(p[at] * new_C[at + 1], ONE_WHOLE)
    return [min(figure, HIGHEST) for figure in new_C]


def sweep(pairs: list[Pair], C: list[int], Z: list[int], W: list[int],
          U: int, new_U: int) -> Swept:
    """One step: downward, upward, then Z' and W' from their equations."""
    p, y = downward(pairs, C, Z, W, U, new_U)
    new_C = upward(p, y)
    new_Z = [nearest(storage_right_side(pair, C[at], Z[at]) + pair.new.b * new_C[at], ONE_WHOLE + pair.new.V)
             for at, pair in enumerate(pairs)]
    new_W = [nearest(sediment_right_side(pair, C[at], W[at]) + pair.new.h * new_C[at], ONE_WHOLE + pair.new.h)
             for at, pair in enumerate(pairs)]
    return Swept(new_C, new_Z, new_W, p, y)


# The calls


class Loaded(NamedTuple):
    """A loading's result, beside the lists that it fills."""

    M: int
    interval: int
    segments: int
    rows_begin: int
    rows: int
    gauges_begin: int
    gauges: int
    flow_rows_begin: int
    flow_rows: int


class Lists:
    """Lent lists by name: half-step numbers, CL, CB, Kd and start figures; or the ten lists of a set alone."""

    def __init__(self, length: int, content: int = 0, names: tuple[str, ...] = COLUMNS) -> None:
        self.column = {name: [content] * length for name in names}

    def shortest(self) -> int:
        return min(len(column) for column in self.column.values())

    def fill(self, river: list[Segment]) -> None:
        """Only the first entries are written."""
        for name, figures in zip(COLUMNS, zip(*((*part.numbers, *part[1:]) for part in river))):
            if name in self.column:
                self.column[name][:len(river)] = figures

    def entries(self, names: tuple[str, ...], segments: int) -> Iterator[tuple[int, ...]]:
        return zip(*(self.column[name][:segments] for name in names))

    def numbers(self, segments: int) -> list[Numbers]:
        return [Numbers(*figures) for figures in self.entries(SET, segments)]

    def river(self, segments: int) -> list[Segment]:
        rest = self.entries(COLUMNS[len(SET):], segments)
        return [Segment(part, *figures) for part, figures in zip(self.numbers(segments), rest)]


@dataclass
class State:
    """Three lists, one figure per segment, with U and the count of steps done."""

    C: list[int]
    Z: list[int]
    W: list[int]
    U: int = 0
    count: int = 0

    @classmethod
    def of_length(cls, length: int, content: int = 0) -> State:
        return cls([content] * length, [content] * length, [content] * length)

    def shortest(self) -> int:
        return min(len(self.C), len(self.Z), len(self.W))


def block_count(segments: int) -> int:
    """Each sixteen segments begun."""
    return -(-segments // BLOCK)


MOST_BLOCKS = block_count(MOST_SEGMENTS)


def highest_figures(C: list[int]) -> list[int]:
    """The highest channel figure of each sixteen segments of a river."""
    return [max(C[at:at + BLOCK]) for at in range(0, len(C), BLOCK)]


def test_lists(segments: int, shortest: int) -> None:
    """13. A lent list is shorter than the river, or the river has no segment or over 1,024."""
    if not 1 <= segments <= MOST_SEGMENTS or shortest < segments:
        raise Refusal(13)


def test_highest(segments: int, highest: list[int]) -> None:
    """13 of start, step and search: one highest figure for each sixteen segments begun."""
    if len(highest) < block_count(segments):
        raise Refusal(13)


def test_figures(river: list[Segment], state: Optional[State], concentrations: Iterable[int],
                 counts: Iterable[int], old: Optional[list[Numbers]] = None) -> None:
    """14, over all segments, then U, U', M and the count; the state is left out for a start.

    Of a step it looks at both sets; `old` is that of the old side.
    """
    last = len(river) - 1

    def fault(at: int, part: Segment) -> bool:
        lent = (part.numbers,) if old is None else (part.numbers, old[at])
        return (any(each.over_one_whole() or (at == last and each.g != 0) for each in lent)
                or part.Kd > HIGHEST_KD or part.CL > HIGHEST or part.CB > HIGHEST or part.start > HIGHEST
                or (state is not None
                    and (state.C[at] > HIGHEST or state.Z[at] > HIGHEST or state.W[at] > HIGHEST)))

    refuse_first(14, "segment", (fault(at, part) for at, part in enumerate(river)))
    if any(figure > HIGHEST for figure in concentrations) or any(count > MOST_STEPS for count in counts):
        raise Refusal(14)


@lru_cache(8)
def rivers_on(sheet: bytes) -> tuple[Sheet, list[list[Segment]]]:
    """Tests 1 to 12, 16 and 19: what is on the sheet, and the river with each flow's set; nobody writes either."""
    found = read_sheet(sheet)
    return found, rivers_of(found)


def test_loading(found: Sheet, row: int, lists: Lists, records: list[Optional[Reach]]) -> None:
    """13 of a loading: also of the reach records, and of a flow row's number past the rows."""
    test_lists(segment_count(found.reaches), lists.shortest())
    if len(records) < len(found.reaches) or row > len(found.flow_rows):
        raise Refusal(13)


def fill(found: Sheet, river: list[Segment], lists: Lists, records: list[Optional[Reach]]) -> Loaded:
    """What an accepted loading writes: the lists with one flow's set, and the first reach records."""
    lists.fill(river)
    records[:len(found.reaches)] = found.reaches
    return Loaded(found.header.M, found.header.interval, len(river),
                  found.rows_begin, len(found.rows), found.gauges_begin, len(found.gauges),
                  found.flow_rows_begin, len(found.flow_rows))


def load(sheet: bytes, row: int, lists: Lists, records: list[Optional[Reach]]) -> Loaded:
    """Loading tests 1 to 13, then fills the lists with the set of that flow row and the first reach records."""
    found, rivers = rivers_on(sheet)
    test_loading(found, row, lists, records)
    return fill(found, rivers[row], lists, records)


def keep_highest(segments: int, state: State, highest: list[int]) -> None:
    """The highest figures are true after every start and step; what lies behind them stays."""
    highest[:block_count(segments)] = highest_figures(state.C[:segments])


def start(lists: Lists, segments: int, state: State, highest: list[int], U: int) -> None:
    """A start sets C, Z and W to the start figure, U to that of step 0 and the count to 0."""
    test_lists(segments, min(lists.shortest(), state.shortest()))
    test_highest(segments, highest)
    river = lists.river(segments)
    test_figures(river, None, (U,), ())
    for figures in (state.C, state.Z, state.W):
        figures[:segments] = [part.start for part in river]
    state.U, state.count = U, 0
    keep_highest(segments, state, highest)


def step(old: Lists, lists: Lists, segments: int, state: State, highest: list[int], p: list[int], y: list[int],
         new_U: int, M: int) -> None:
    """A step tests 13 to 15; it is lent the old side's set and, in `lists`, the new one's with CL, CB and the rest.

    After it the state's U is that step's U'.
    """
    test_lists(segments, min(old.shortest(), lists.shortest(), state.shortest(), len(p), len(y)))
    test_highest(segments, highest)
    before, river = old.numbers(segments), lists.river(segments)
    test_figures(river, state, (state.U, new_U), (state.count, M), before)
    if state.count >= M:
        raise Refusal(15)
    pairs = [Pair(was, part.numbers, part.CL, part.CB) for was, part in zip(before, river)]
    swept = sweep(pairs, state.C, state.Z, state.W, state.U, new_U)
    for lent, figures in zip((state.C, state.Z, state.W, p, y), swept):
        lent[:segments] = figures
    state.U, state.count = new_U, state.count + 1
    keep_highest(segments, state, highest)


def figures_at(lists: Lists, state: State, gauge: int) -> tuple[int, int, int]:
    """C, Z and Kd x W of a segment."""
    at = gauge - 1
    return state.C[at], state.Z[at], lists.column["Kd"][at] * state.W[at]


def report(lists: Lists, segments: int, state: State, gauge: int) -> tuple[int, int, int]:
    """A report tests 13 then 14, and gives C, Z and Kd x W of its segment."""
    test_lists(segments, min(lists.shortest(), state.shortest()))
    if not 1 <= gauge <= segments:
        raise Refusal(13)
    test_figures(lists.river(segments), state, (state.U,), (state.count,))
    return figures_at(lists, state, gauge)


NONE_ABOVE = 0                      # in place of a segment's number


def search(segments: int, C: list[int], highest: list[int], limit: int) -> set[int]:
    """A search tests 13 alone; of what it may answer the document leaves the choice open.

    That is any segment above the limit in a block whose highest figure, true or not, is above it; none just where
    there is no such segment.
    """
    test_lists(segments, len(C))
    test_highest(segments, highest)
    above = {at + 1 for at in range(segments) if highest[at // BLOCK] > limit and C[at] > limit}
    return above or {NONE_ABOVE}


def upstream(starts: list[int], concentrations: list[int], M: int, step_number: int) -> int:
    """U at step j is that of the last row starting at or before j; tests the count (3), the rows (8)."""
    if not 1 <= len(starts) <= MOST_ROWS or len(starts) != len(concentrations):
        raise Refusal(3)
    refuse_first(8, "row", row_faults([Row(*row) for row in zip(starts, concentrations)], M))
    return [figure for begin, figure in zip(starts, concentrations) if begin <= step_number][-1]


# The forecast


def own_upstream(found: Sheet, step_number: int) -> int:
    """U at step j is that of the last row starting at or before j."""
    return [row.concentration for row in found.rows if row.start <= step_number][-1]


def own_flow(found: Sheet, step_number: int) -> int:
    """The flow that holds at the end of a step: that of the last flow row starting at or before it, else 0."""
    return sum(row.start <= step_number for row in found.flow_rows)


def own_step(found: Sheet, rivers: list[list[Segment]], state: State) -> tuple[State, list[int], list[int]]:
    """The sheet's own next step from a state of as many segments, which stays: U' and the pair are those of the rows.

    With it p and y of its downward pass.
    """
    number = state.count + 1
    new_U = own_upstream(found, number)
    sides = rivers[own_flow(found, number - 1)], rivers[own_flow(found, number)]
    pairs = [Pair(was.numbers, now.numbers, now.CL, now.CB) for was, now in zip(*sides)]
    swept = sweep(pairs, state.C, state.Z, state.W, state.U, new_U)
    return State(swept.C, swept.Z, swept.W, new_U, number), swept.p, swept.y


SIDES = len(SET) + len(COLUMNS)     # lists of a step's two sides: those of the old set, and those of a loading


class Room(NamedTuple):
    """What a forecast is lent to write: the copies, one list for the lists of a step's two sides, the working lists.

    The list of the sides is cut into equal parts, as many as there are lists, in their order.
    """

    copy: State
    highest: list[int]
    sides: list[int]
    p: list[int]
    y: list[int]


def fill_sides(sides: list[int], river: list[Segment]) -> None:
    """The new side's parts as a loading gives them; then the old side's are those of the new side's set, whole."""
    width = len(sides) // SIDES
    parts_at = range(0, width * SIDES, width)
    columns = zip(*((*part.numbers, *part[1:]) for part in river))
    for at, column in zip(parts_at[len(SET):], columns):
        sides[at:at + len(river)] = column
    for at in parts_at[:len(SET)]:
        sides[at:at + width] = sides[at + len(SET) * width:at + (len(SET) + 1) * width]


def test_question(found: Sheet, count: int, gauge: int, horizon: int) -> None:
    """20. The gauge is not on the sheet, or present step plus horizon exceeds M."""
    if gauge not in found.gauges or count + horizon > found.header.M:
        raise Refusal(20)


def look_ahead(found: Sheet, rivers: list[list[Segment]], segments: int, live: State, highest: list[int], room: Room,
               gauge: int, limit: int, horizon: int) -> Optional[int]:
    """13, 14 of the live state, and 20; then the forecast.

    The lists are as long as they are lent; what lies behind the river is not looked at.
    """
    test_lists(segments, min(live.shortest(), room.copy.shortest(), len(room.sides) // SIDES, len(room.p), len(room.y)))
    test_highest(segments, highest)
    test_highest(segments, room.highest)
    if segments != len(rivers[0]):
        raise Refusal(13)
    test_figures(rivers[0], live, (live.U,), (live.count,))
    test_question(found, live.count, gauge, horizon)

    run = State(live.C[:segments], live.Z[:segments], live.W[:segments], live.U, live.count)
    room.highest[:block_count(segments)] = highest[:block_count(segments)]
    while run.C[gauge - 1] <= limit and run.count < live.count + horizon:
        run, p, y = own_step(found, rivers, run)
        room.p[:segments], room.y[:segments] = p, y
        keep_highest(segments, run, room.highest)
    for lent, figures in zip((room.copy.C, room.copy.Z, room.copy.W), (run.C, run.Z, run.W)):
        lent[:segments] = figures
    room.copy.U, room.copy.count = run.U, run.count
    fill_sides(room.sides, rivers[own_flow(found, run.count)])
    return run.count if run.C[gauge - 1] > limit else None


def forecast(sheet: bytes, segments: int, live: State, highest: list[int], room: Room, gauge: int, limit: int,
             horizon: int) -> Optional[int]:
    """The first step, from the present one on, at which the gauge's channel figure is above the limit, or none.

    The sheet is tested first as loading does.  The copies are left as at that step, else at the horizon's end; the live
    river does not move.
    """
    return look_ahead(*rivers_on(sheet), segments, live, highest, room, gauge, limit, horizon)


# Several rivers on shared lists


class Slot(NamedTuple):
    """What the table has of a number: whether a river is open under it, its stretch of the shared lists, U, count."""

    opened: int                     # 0 where none is open
    first: int                      # segment of the shared lists, which count from 0
    segments: int
    upstream: int
    steps: int

    @property
    def stretch(self) -> range:
        return range(self.first, self.first + self.segments)


Table = list[Slot]                  # of the numbers 1 to 8, in their order


def open_rivers(table: Table) -> list[Slot]:
    return [slot for slot in table if slot.opened]


def test_room(table: Table, number: int, segments: int) -> None:
    """17. The number is outside 1 to 8 or already open, or these segments and those of the open rivers exceed 1,024."""
    if not 1 <= number <= MOST_RIVERS or table[number - 1].opened:
        raise Refusal(17)
    if segments + sum(slot.segments for slot in open_rivers(table)) > MOST_SEGMENTS:
        raise Refusal(17)


def test_table(table: Table) -> None:
    """18. Open rivers pass segment 1,024, or overlap: a segment is counted twice."""
    stretches = [slot.stretch for slot in open_rivers(table)]
    if any(stretch.stop > MOST_SEGMENTS for stretch in stretches):
        raise Refusal(18)
    if len(set().union(*stretches)) < sum(map(len, stretches)):
        raise Refusal(18)


def test_river(table: Table, number: int) -> None:
    """18. The named river is not open, or the table is at fault."""
    if not 1 <= number <= MOST_RIVERS or not table[number - 1].opened:
        raise Refusal(18)
    test_table(table)


class Pool:
    """Rivers under their numbers, kept apart: each open one has a state of its own, which no other one's call reaches.

    A call is handed the table, and the length of the shortest shared list that it is lent, as its caller has them:
    these decide 17, 18 and 13.  Figures come from the river's own state alone; the highest figures are a list of the
    river's own, whose blocks count from its own first segment.
    """

    def __init__(self) -> None:
        self.rivers: dict[int, State] = {}

    @classmethod
    def of(cls, table: Table, C: list[int], Z: list[int], W: list[int]) -> Pool:
        """Each open river with what stands on its stretch of these lists."""
        found = cls()
        for number, slot in enumerate(table, 1):
            if slot.opened:
                part = slice(slot.stretch.start, slot.stretch.stop)
                found.rivers[number] = State(C[part], Z[part], W[part], slot.upstream, slot.steps)
        return found

    def open(self, number: int, sheet: bytes, row: int, lists: Lists, records: list[Optional[Reach]], shared: int,
             highest: list[int], table: Table, U: int) -> Loaded:
        """Loads and starts in one call: 1 to 12, 16 and 19, then 17, 18 of the table alone, 13 and 14."""
        found, rivers = rivers_on(sheet)
        segments = len(rivers[0])
        test_room(table, number, segments)
        test_table(table)
        test_loading(found, row, lists, records)
        test_lists(MOST_SEGMENTS, shared)
        test_highest(segments, highest)
        if U > HIGHEST:
            raise Refusal(14)
        loaded = fill(found, rivers[row], lists, records)
        self.rivers[number] = State.of_length(segments)
        start(lists, segments, self.rivers[number], highest, U)
        return loaded

    def named(self, number: int, shared: int, table: Table) -> State:
        """18, then 13 of the shared lists; the river's own state."""
        test_river(table, number)
        test_lists(MOST_SEGMENTS, shared)
        return self.rivers[number]

    def start(self, number: int, lists: Lists, shared: int, highest: list[int], table: Table, U: int) -> None:
        state = self.named(number, shared, table)
        start(lists, len(state.C), state, highest, U)

    def step(self, number: int, old: Lists, lists: Lists, shared: int, highest: list[int], table: Table, p: list[int],
             y: list[int], new_U: int, M: int) -> None:
        state = self.named(number, shared, table)
        step(old, lists, len(state.C), state, highest, p, y, new_U, M)

    def report(self, number: int, lists: Lists, shared: int, table: Table, gauge: int) -> tuple[int, int, int]:
        state = self.named(number, shared, table)
        return report(lists, len(state.C), state, gauge)

    def search(self, number: int, shared: int, highest: list[int], table: Table, limit: int) -> set[int]:
        """18, then 13; of the shared lists it is lent C alone."""
        state = self.named(number, shared, table)
        return search(len(state.C), state.C, highest, limit)

    def forecast(self, number: int, sheet: bytes, shared: int, highest: list[int], table: Table, room: Room, gauge: int,
                 limit: int, horizon: int) -> Optional[int]:
        """The sheet's tests, 18, 13 of the shared lists, then as of a river alone."""
        on_sheet = rivers_on(sheet)
        state = self.named(number, shared, table)
        return look_ahead(*on_sheet, len(state.C), state, highest, room, gauge, limit, horizon)

    def close(self, number: int, table: Table) -> None:
        """18 alone."""
        test_river(table, number)
        del self.rivers[number]


# The listing


class Lines(NamedTuple):
    """The river after one step, as `run` shows it."""

    step: int
    loaded: Loaded
    lists: Lists
    state: State
    highest: list[int]
    gauges: list[int]


def words(sheet: bytes, begin: int, count: int) -> list[int]:
    """That many fields of the sheet, from an offset on."""
    return [field_at(sheet, at) for at in range(begin, begin + count * FIELD, FIELD)]


def answer(sheet: bytes) -> Optional[Refusal]:
    """A loading's answer with room enough: nothing when it accepts, else the refusal."""
    try:
        load(sheet, 0, Lists(MOST_SEGMENTS), [None] * MOST_REACHES)
    except Refusal as refusal:
        return refusal
    return None


def run(sheet: bytes) -> Iterator[Lines]:
    """The sheet's own river: the loading, the start, then each step up to M, each with its pair of sets."""
    old, lists = Lists(MOST_SEGMENTS, names=SET), Lists(MOST_SEGMENTS)
    loaded = load(sheet, 0, lists, [None] * MOST_REACHES)
    rivers = rivers_of(read_sheet(sheet))
    rows = words(sheet, loaded.rows_begin, loaded.rows * len(Row._fields))
    starts, concentrations = rows[0::2], rows[1::2]
    gauges = words(sheet, loaded.gauges_begin, loaded.gauges)
    state, highest = State.of_length(loaded.segments), [0] * block_count(loaded.segments)
    p, y = [0] * loaded.segments, [0] * loaded.segments
    start(lists, loaded.segments, state, highest, upstream(starts, concentrations, loaded.M, 0))
    held = None
    for number in range(1, loaded.M + 1):
        new_U = upstream(starts, concentrations, loaded.M, number)
        pair = flow_in_force(sheet, number - 1), flow_in_force(sheet, number)
        if pair != held:
            held = pair
            for lent, flow_row in zip((old, lists), pair):
                lent.fill(rivers[flow_row])
        step(old, lists, loaded.segments, state, highest, p, y, new_U, loaded.M)
        yield Lines(number, loaded, lists, state, highest, gauges)


HEADING = "step segment channel storage sediment"


def listing(sheet: bytes) -> bytes:
    """What program `river` prints for a sheet; a report after an accepted step is never refused."""
    lines = [HEADING]
    steps = 0
    try:
        for after in run(sheet):
            steps = after.state.count
            if after.step % after.loaded.interval == 0:
                for gauge in after.gauges:
                    figures = figures_at(after.lists, after.state, gauge)
                    lines.append(" ".join(map(str, (after.step, gauge, *figures))))
        lines.append(f"done {steps}")
    except Refusal as refusal:
        lines = [f"refused {refusal.number}"]
    return "".join(line + "\n" for line in lines).encode("ascii")
