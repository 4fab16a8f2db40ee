"""The same river in floating point, by two schemes, for comparison with a listing.

    python3 tests/float_river.py SHEET.otr LISTING    how far a listing lies from the documents' equations
    python3 tests/float_river.py --report             the report's printed output (figure 13) and the scheme that
                                                      gives it; application 1 by it beside the stored listing,
                                                      and what the place where flow is taken makes of it

No figure is rounded to ng/L here: every number is a 64-bit float.  DOCUMENT is document 01's scheme with flow at a
segment's middle (document 02, 2), EXACT the same with half-step numbers in whole parts of 2^30.  REPORT is that of
OTIS, USGS WRIR 98-4018: the boundary concentration stands on the face above segment 1 (equations B10 to B14), area
and dispersion are averaged singly at a face (equation B2), flow is taken at a segment's middle and not rounded, and
a boundary value counts from the step that begins at its time.  A flow row, which the report does not have, holds
from the new side of its step in all of them, and so does a segment's band, by its flow rounded down.
"""
from __future__ import annotations

import argparse
import math
from collections.abc import Iterable, Iterator
from dataclasses import replace
from itertools import product
from pathlib import Path
from typing import NamedTuple

import model
from model import Header, Reach, Sheet

import command                      # the tools' folder is on the path since `model` was imported

UVAS = Path(__file__).resolve().parent.parent / "examples"


class Scheme(NamedTuple):
    """How a river is put into equations."""

    boundary_on_face: bool          # else one segment above segment 1
    faces_of_means: bool            # AD of a face is mean A x mean D, else the mean of A x D
    middle_flow: bool               # flow at a segment's middle, else at its upper end
    late_rows: bool                 # a row counts from the step that begins at its start, else that ends there
    whole_flows: bool               # flows rounded down to whole mL/s
    whole_parts: bool               # half-step numbers to the nearest part of 2^30


SEARCHED = ("boundary_on_face", "late_rows", "faces_of_means")
DOCUMENT = Scheme(False, False, True, False, True, False)
EXACT = DOCUMENT._replace(whole_parts=True)                 # the documents' exact river
REPORT = Scheme(True, True, True, True, False, False)
FLOWS = {                                                   # the report's scheme with flows taken otherwise
    "upper end, rounded down": REPORT._replace(middle_flow=False, whole_flows=True),    # document 01 without request 2
    "upper end": REPORT._replace(middle_flow=False),
    "middle, rounded down": REPORT._replace(whole_flows=True),                          # document 02, 2
}


def float_flows(header: Header, own: list[Reach], scheme: Scheme) -> list[float]:
    found, gain = [], 0                                     # the gain, in parts of LATERAL
    for reach in own:
        net = (reach.qin - reach.qout) * header.dx
        twice = 2 * gain + net if scheme.middle_flow else 2 * gain
        more = twice // (2 * model.LATERAL) if scheme.whole_flows else twice / (2 * model.LATERAL)
        found.append(float(header.top_flow + more))
        gain += net
    return found


def faces(own: list[Reach], scheme: Scheme) -> list[float]:
    """AD at the face above each segment and below the last."""
    between = [(one.A + other.A) * (one.D + other.D) / 4 if scheme.faces_of_means else (one.AD + other.AD) / 2
               for one, other in zip(own, own[1:])]
    return [float(own[0].AD), *between, float(own[-1].AD)]


class Numbers(NamedTuple):
    """What a step needs of one segment, in wholes: half-step numbers, their sums, lCL and mCB."""

    e: float
    g: float
    a: float
    b: float
    s: float
    h: float
    T: float
    V: float
    inflow: float
    background: float


def segment_numbers(header: Header, reach: Reach, Q: float, above: float, below: float, first: bool, last: bool,
                    scheme: Scheme) -> Numbers:
    """The numbers of one segment, from its flow and the AD of its two faces."""
    dt, dx = header.dt, header.dx
    space, rate = dt / (2 * reach.A * dx ** 2), dt / (2 * model.RATE_UNIT)
    e, g = space * (Q * dx / 2 + above), space * (below - Q * dx / 2)
    l, a, k = dt * reach.qin / (2 * model.LATERAL * reach.A), rate * reach.ALPHA, rate * reach.LAMBDA
    b, ks, m, h = a * reach.A / reach.AS, rate * reach.LAMBDA2, rate * reach.LAMHAT2, rate * reach.LAMHAT
    s = h * reach.RHO * reach.Kd / model.KD_UNIT
    if last:
        g = 0.0                                             # zero gradient below
    if scheme.whole_parts:
        e, g, l, a, b, k, ks, h, m, s = (math.floor(number * model.ONE_WHOLE + 0.5) / model.ONE_WHOLE
                                         for number in (e, g, l, a, b, k, ks, h, m, s))
    leaving = e + g                                         # what leaves C by its two faces
    if first and scheme.boundary_on_face:
        e = space * (Q * dx + 2 * above)                    # C14 and C24
        leaving = space * (Q * dx / 2 + 2 * above + below)  # C12 and C22
    return Numbers(e, g, a, b, s, h, leaving + l + a + k + s, b + ks + m, l * reach.CL, m * reach.CB)


class Course:
    """One flow's numbers, and what the elimination makes of them on the new side of a step."""

    def __init__(self, header: Header, found: Sheet, scheme: Scheme) -> None:
        Q = float_flows(header, model.reach_of_segments(found.reaches), scheme)
        own = model.reaches_at(found, list(map(math.floor, Q)))
        AD, last = faces(own, scheme), len(own) - 1
        self.river = [segment_numbers(header, reach, Q[at], AD[at], AD[at + 1], at == 0, at == last, scheme)
                      for at, reach in enumerate(own)]
        self.p: list[float] = []
        self.H: list[float] = []
        above = 0.0
        for e, g, a, b, s, h, T, V, *_ in self.river:
            self.H.append(1 + T - a * b / (1 + V) - s * h / (1 + h) - e * above)
            above = g / self.H[-1]
            self.p.append(above)


class FloatRiver:
    """A start, then steps; C, Z and W hold one float for each segment."""

    def __init__(self, found: Sheet, scheme: Scheme) -> None:
        self.rows, self.flow_rows, self.late = found.rows, found.flow_rows, scheme.late_rows
        own = model.reach_of_segments(found.reaches)
        self.courses = [Course(header, found, scheme) for header in model.headers(found)]
        self.Kd = [reach.Kd for reach in own]
        self.C = [float(reach.start) for reach in own]
        self.Z, self.W = list(self.C), list(self.C)
        self.count, self.U = 0, self.upstream(0)

    def upstream(self, step: int) -> float:
        """The boundary concentration at a step."""
        return float([row.concentration for row in self.rows if row.start <= max(0, step - self.late)][-1])

    def course(self, step: int) -> Course:
        """The flow in force at a step."""
        return self.courses[sum(row.start <= step for row in self.flow_rows)]

    def step(self) -> None:
        """Thomas algorithm, storage and sediment eliminated; old numbers on the right side, new ones on the left."""
        new_U = self.upstream(self.count + 1)
        old, course = self.course(self.count), self.course(self.count + 1)
        y, stores, sediments = [], [], []
        above, swept = self.U, new_U
        for was, now, H, C, Z, W, below in zip(old.river, course.river, course.H, self.C, self.Z, self.W,
                                               [*self.C[1:], 0.0]):
            P = ((1 - was.V) * Z + was.b * C + was.background + now.background) / (1 + now.V)
            N = ((1 - was.h) * W + was.h * C) / (1 + now.h)
            swept = ((1 - was.T) * C + was.e * above + now.e * swept + was.g * below + was.a * Z + now.a * P
                     + was.s * W + now.s * N + was.inflow + now.inflow) / H
            above = C
            y.append(swept)
            stores.append(P)
            sediments.append(N)
        for at in range(len(y) - 2, -1, -1):
            y[at] += course.p[at] * y[at + 1]
        self.C = y
        self.Z = [P + part.b * C / (1 + part.V) for P, part, C in zip(stores, course.river, y)]
        self.W = [N + part.h * C / (1 + part.h) for N, part, C in zip(sediments, course.river, y)]
        self.U, self.count = new_U, self.count + 1

    def figures(self, segment: int) -> tuple[float, float, float]:
        at = segment - 1
        return self.C[at], self.Z[at], self.Kd[at] * self.W[at]


class Farthest(NamedTuple):
    """The largest distance of one column of a listing, where it is, and the figure there."""

    distance: float
    step: int
    segment: int
    figure: int


def farthest(sheet: bytes, listing: str, scheme: Scheme = DOCUMENT) -> list[Farthest]:
    """Of channel, storage and sediment: where the listing lies farthest from the float river."""
    river = FloatRiver(model.read_sheet(sheet), scheme)
    found = [Farthest(0.0, 0, 0, 0)] * 3
    for line in listing.splitlines()[1:-1]:
        step, segment, *figures = map(int, line.split())
        while river.count < step:
            river.step()
        found = [max(earlier, Farthest(abs(figure - exact), step, segment, figure))
                 for earlier, figure, exact in zip(found, figures, river.figures(segment))]
    return found


# The report's figure 13: "Example solute output file for a time-variable simulation"

FIGURE_13 = {       # hour: channel at the first two print locations, storage at the second
    8.45: ("3.700000E+00", "3.700000E+00", "1.850000E+00"),
    8.55: ("3.700230E+00", "3.700000E+00", "1.850000E+00"),
    8.65: ("4.338749E+00", "3.700000E+00", "1.850000E+00"),
    8.75: ("7.305566E+00", "3.700021E+00", "1.850000E+00"),
    8.85: ("9.607778E+00", "3.703966E+00", "1.850005E+00"),
    8.95: ("1.066443E+01", "3.773418E+00", "1.850140E+00"),
    9.05: ("1.109228E+01", "4.108784E+00", "1.851210E+00"),
    9.15: ("1.126551E+01", "4.875030E+00", "1.855119E+00"),
}
MG = 1_000_000                      # ng/L in a mg/L


FIRST_HOUR = 8.25                   # the report's clock at step 0
RISE = 5.0                          # mg/L that a front passes on its rise, between 3.7 and the peaks


def with_step(found: Sheet, dt: int) -> Sheet:
    """The same run with another step, in which every row's start is whole."""
    rows = [row._replace(start=row.start * found.header.dt // dt) for row in found.rows]
    return replace(found, header=found.header._replace(dt=dt), rows=rows)


def figure_13(chloride: Sheet, scheme: Scheme, dt: int = 36, begin: int = 900) -> dict[float, tuple[float, ...]]:
    """What a scheme gives for the printed figures: the means of the two segments that meet at 38 m and 105 m.

    The injection begins so many seconds after step 0, 900 being 8.5 h.  Without exchange, as in segment 105, the
    report's storage zone holds nothing.
    """
    background, injected, _ = chloride.rows
    rows = [background, injected._replace(start=begin // chloride.header.dt)]
    river = FloatRiver(with_step(replace(chloride, rows=rows), dt), scheme)
    found = {}
    for hour in FIGURE_13:
        while river.count * dt < round((hour - FIRST_HOUR) * 3600):
            river.step()
        C, Z = river.C, river.Z
        found[hour] = ((C[37] + C[38]) / 2 / MG, (C[104] + C[105]) / 2 / MG, Z[105] / 2 / MG)
    return found


def agreeing(found: dict[float, tuple[float, ...]]) -> int:
    """How many of the 24 figures agree in every digit printed."""
    return sum(f"{figure:.6E}" == text for hour in found for figure, text in zip(found[hour], FIGURE_13[hour]))


def figure_13_lines(chloride: Sheet) -> Iterator[str]:
    """Printed and found, side by side; then how much of it rests on each choice of the scheme."""
    found = figure_13(chloride, REPORT)
    yield "hour   printed: 38 m, 105 m, storage at 105 m          by the report's scheme"
    for hour, figures in found.items():
        yield f"{hour:.2f}   {'  '.join(FIGURE_13[hour])}   {'  '.join(f'{figure:.6E}' for figure in figures)}"
    yield f"{agreeing(found)} of {3 * len(FIGURE_13)} figures agree in every digit"
    for choice in SEARCHED:
        yield f"  {agreeing(figure_13(chloride, other_choice(choice)))} with {choice} as in document 01"
    for name, scheme in FLOWS.items():
        yield f"  {agreeing(figure_13(chloride, scheme))} with flow at the {name}"


def other_choice(choice: str) -> Scheme:
    return REPORT._replace(**{choice: getattr(DOCUMENT, choice)})


def search_lines(chloride: Sheet) -> Iterator[str]:
    """Which run figure 13 shows: beginnings, steps and choices that come nearest to the 16 channel figures."""
    tried = []
    for begin, dt, *choices in product((540, 720, 900), (18, 36, 60, 90, 180), *[(True, False)] * len(SEARCHED)):
        found = figure_13(chloride, REPORT._replace(**dict(zip(SEARCHED, choices))), dt, begin)
        off = max(abs(figure - float(text)) for hour in found
                  for figure, text in zip(found[hour][:2], FIGURE_13[hour]))
        tried.append((off, f"{off:.6f} mg/L off: begins at {FIRST_HOUR + begin / 3600:.2f} h, step {dt} s, "
                      + ", ".join(f"{name} {choice}" for name, choice in zip(SEARCHED, choices))))
    yield f"{len(tried)} runs, the nearest"
    yield from (words for _, words in sorted(tried)[:4])


class Peak(NamedTuple):
    """A gauge's highest figure, mg/L, and the hour when it is first there."""

    figure: float
    hour: float


def peak(figures: dict[int, float]) -> Peak:
    """Of figures by their second since step 0."""
    second = max(figures, key=lambda each: (figures[each], -each))
    return Peak(figures[second], FIRST_HOUR + second / 3600)


def curves(chloride: Sheet, scheme: Scheme, dt: int, seconds: Iterable[int]) -> dict[int, dict[int, float]]:
    """The channel at each gauge, in mg/L, by these seconds since step 0."""
    river = FloatRiver(with_step(chloride, dt), scheme)
    found: dict[int, dict[int, float]] = {gauge: {} for gauge in chloride.gauges}
    for second in seconds:
        while river.count * dt < second:
            river.step()
        for gauge in chloride.gauges:
            found[gauge][second] = river.C[gauge - 1] / MG
    return found


def apart(one: dict[int, float], other: dict[int, float]) -> Peak:
    """Where two curves are farthest apart."""
    return peak({second: abs(one[second] - figure) for second, figure in other.items()})


def application_1_lines(chloride: Sheet, listing: str, dt: int) -> Iterator[str]:
    """For each gauge the peak by the report's scheme and by the listing, and where the two are farthest apart."""
    printed: dict[int, dict[int, float]] = {gauge: {} for gauge in chloride.gauges}
    for line in listing.splitlines()[1:-1]:
        step, gauge, C, *_ = map(int, line.split())
        printed[gauge][step * chloride.header.dt] = C / MG
    found = curves(chloride, REPORT, dt, printed[chloride.gauges[0]])
    yield f"gauge   by steps of {dt:3} s   the listing          farthest apart"
    for gauge in chloride.gauges:
        shown = peak(found[gauge]), peak(printed[gauge]), apart(found[gauge], printed[gauge])
        yield "   ".join([f"{gauge:3} m", *(f"{figure:7.4f} at {hour:5.2f} h" for figure, hour in shown)])


def flow_lines(chloride: Sheet, dt: int) -> Iterator[str]:
    """How far the report's scheme moves, at each gauge, where its flow alone is taken otherwise."""
    line = chloride.header.interval * chloride.header.dt
    seconds = range(line, chloride.header.M * chloride.header.dt + 1, line)
    found = curves(chloride, REPORT, dt, seconds)
    others = [curves(chloride, scheme, dt, seconds) for scheme in FLOWS.values()]
    yield "gauge   " + "   ".join(f"{name:>23}" for name in FLOWS)
    for gauge in chloride.gauges:
        far = [apart(found[gauge], other[gauge]) for other in others]
        yield f"{gauge:3} m   " + "   ".join(f"{figure:12.6f} at {hour:5.2f} h" for figure, hour in far)


def rise(figures: dict[int, float]) -> float:
    """The second at which a curve first passes RISE, on a straight line between two of its figures."""
    before = next(iter(figures))
    for second, figure in figures.items():
        if figure > RISE:
            return second - (second - before) * (figure - RISE) / (figure - figures[before])
        before = second
    return math.inf


def place_lines(chloride: Sheet) -> Iterator[str]:
    """The documents' scheme with flow at the upper end and at the middle, beside the report's, every 36 s."""
    seconds = range(36, chloride.header.M * chloride.header.dt + 1, 36)
    report = curves(chloride, REPORT, 36, seconds)
    places = [curves(chloride, DOCUMENT._replace(middle_flow=middle), chloride.header.dt, seconds)
              for middle in (False, True)]
    yield f"gauge   peak too low by, mg/L   {RISE} mg/L too early by, s   farthest apart, mg/L   (upper end, middle)"
    for gauge in chloride.gauges:
        figures = [[peak(report[gauge]).figure - peak(found[gauge]).figure for found in places],
                   [rise(report[gauge]) - rise(found[gauge]) for found in places],
                   [apart(report[gauge], found[gauge]).figure for found in places]]
        yield f"{gauge:3} m   " + "   ".join(f"{upper:10.5f} {middle:10.5f}" for upper, middle in figures)


def main() -> int:
    parser = argparse.ArgumentParser(description="Compares a listing with the same river in floating point.")
    parser.add_argument("sheet", nargs="?")
    parser.add_argument("listing", nargs="?")
    parser.add_argument("--report", action="store_true", help="the report's figure 13 and application 1")
    asked = parser.parse_args()
    if asked.report:
        chloride = model.read_sheet((UVAS / "uvas-chloride.otr").read_bytes())
        listing = (UVAS / "uvas-chloride.listing").read_text()
        for lines in (figure_13_lines(chloride), search_lines(chloride), application_1_lines(chloride, listing, 180),
                      application_1_lines(chloride, listing, 36), flow_lines(chloride, 36), place_lines(chloride)):
            print("\n".join(lines))
        return 0
    if not asked.listing:
        parser.error("a sheet and its listing, or --report")
    sheet, listing = command.given(asked.sheet), command.given_text(asked.listing)
    for words, scheme in (("the documents' equations, nothing rounded but flows", DOCUMENT),
                          ("the documents' exact river: half-step numbers rounded too", EXACT),
                          ("the report's scheme", REPORT)):
        print(words)
        for name, far in zip(("channel", "storage", "sediment"), farthest(sheet, listing, scheme)):
            print(f"  {name}: at most {far.distance:.4g} off, in segment {far.segment} after step {far.step}, "
                  f"where the listing has {far.figure}")
    return 0


if __name__ == "__main__":
    command.run(main)
