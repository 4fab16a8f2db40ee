"""The document's bench figures, tests 13 to 15 and 17 to 20, bands, highest figures, searches and forecasts, put to the
model itself.

Program `river` cannot show these from outside: they hold the model to the document.
"""
from __future__ import annotations

import math
import random
from collections.abc import Callable, Iterator
from dataclasses import replace
from fractions import Fraction
from itertools import chain
from typing import Any, NamedTuple

import exact
import model
import sheets
from model import (COLUMNS, HIGHEST, HIGHEST_FLOW, MOST_BANDS, MOST_SEGMENTS, MOST_STEPS, NONE_ABOVE, ONE_WHOLE, SET, Band,
                   Lists, Numbers, Pair, Refusal, Segment, Slot, State)
from pools import after_closing, after_moving, after_opening, replaced


class Check(NamedTuple):
    name: str
    found: Any
    wanted: Any


ACCEPTED = "accepted"


def answer(draft: sheets.Draft) -> Any:
    refusal = model.answer(sheets.write(draft))
    return ACCEPTED if refusal is None else (refusal.number, refusal.place)


def gains(count: int) -> list[int]:
    """Each segment's flow less the top flow, on the slope of T4."""
    draft = sheets.slope(1_000, count)
    own = model.reach_of_segments(draft.reaches)
    return [flow - draft.header.top_flow for flow in model.flows(draft.header, own)]


def top_river(draft: sheets.Draft) -> list[Segment]:
    """The segments with the set of the top flow."""
    return model.rivers_of(model.read_sheet(sheets.write(draft)))[0]


def pairs(old: list[Segment], new: list[Segment]) -> list[Pair]:
    return [Pair(before.numbers, after.numbers, after.CL, after.CB) for before, after in zip(old, new)]


def bench_figures() -> Iterator[Check]:
    """T1 to T11, the listing and the bench lines after T11."""
    yield Check("T1", model.parts(1, 3), 357_913_941)
    yield Check("T2", model.parts(1, 2 ** 31), 1)
    yield Check("T3", model.parts(0, 1), 0)
    yield Check("T4", gains(3)[1], -69)
    yield Check("T5", gains(3)[2], -114)
    full = sheets.brook(dt=2, Q=1_000)
    yield Check("T6, e", top_river(full)[0].numbers.e, ONE_WHOLE)
    yield Check("T6", answer(full), ACCEPTED)
    yield Check("T7", answer(sheets.brook(dt=3, Q=1_000)), (12, ("segment", 1)))
    yield Check("T8", answer(sheets.brook(dt=2, Q=1_001)), (11, ("segment", 1)))
    yield Check("T9", answer(sheets.brook(dt=3, Q=1_001)), (11, ("segment", 1)))
    river = top_river(sheets.two_segment_brook())
    swept = model.sweep(pairs(river, river), [0, 0], [0, 0], [0, 0], 3_000, 3_000)
    yield Check("T10", swept.C, [1_035, 207])
    yield Check("T11", swept.p[0], 178_956_971)
    yield Check("slope with 69", answer(sheets.slope(69, 2)), ACCEPTED)
    yield Check("slope with 68", answer(sheets.slope(68, 2)), (10, ("segment", 2)))
    yield Check("1,024 segments", answer(sheets.still_reaches(1_024)), ACCEPTED)
    yield Check("1,025 segments", answer(sheets.still_reaches(1_024, 1)), (7, None))
    yield Check("the listing", model.listing(sheets.write(sheets.listing_draft())), sheets.LISTING)
    yield Check("the longest sheet", model.LONGEST_SHEET, 48_040)


class Bench:
    """The plain river with flow rows, loaded for rows 1 and 2 and started, with one call to come."""

    def __init__(self) -> None:
        self.sheet = sheets.write(sheets.plain_flows())
        self.row = 2
        self.old, self.lists = Lists(11, names=SET), Lists(12)
        self.records: list = [None] * 4
        model.load(self.sheet, 1, self.lists, self.records)
        self.old.fill(self.lists.river(9))
        self.loaded = model.load(self.sheet, self.row, self.lists, self.records)
        self.segments = self.loaded.segments
        self.state = State.of_length(11, 7)
        self.highest = [sheets.HIGHEST_FIELD, 8]        # 14 skips them, and of 9 segments the first one is written
        self.p, self.y = [0] * 10, [0] * 10
        self.U, self.M, self.gauge, self.limit = 7_000, self.loaded.M, 1, 2_999
        model.start(self.lists, self.segments, self.state, self.highest, self.U)

    def load(self) -> Any:
        return model.load(self.sheet, self.row, self.lists, self.records)

    def start(self) -> Any:
        return model.start(self.lists, self.segments, self.state, self.highest, self.U)

    def step(self) -> Any:
        return model.step(self.old, self.lists, self.segments, self.state, self.highest, self.p, self.y, self.U, self.M)

    def report(self) -> Any:
        return model.report(self.lists, self.segments, self.state, self.gauge)

    def search(self) -> Any:
        return model.search(self.segments, self.state.C, self.highest, self.limit)

    def held(self) -> str:
        """Everything that a call may write."""
        return repr((self.old.column, self.lists.column, self.records, self.state, self.highest, self.p, self.y))


Change = Callable[[Bench], None]


def outcome(call: str, change: Change) -> Any:
    """The answer of one call after a change; a refused call must leave everything as it was."""
    bench = Bench()
    change(bench)
    before = bench.held()
    try:
        getattr(bench, call)()
    except Refusal as refusal:
        return (refusal.number, refusal.place) if bench.held() == before else "a refused call wrote"
    return ACCEPTED


def column(name: str, at: int, figure: int) -> Change:
    def change(bench: Bench) -> None:
        bench.lists.column[name][at] = figure
    return change


def old_column(name: str, at: int, figure: int) -> Change:
    """Another figure in the set of a step's old side."""
    def change(bench: Bench) -> None:
        bench.old.column[name][at] = figure
    return change


def shortened(name: str) -> Change:
    """One list cut to one entry less than the river has segments."""
    def change(bench: Bench) -> None:
        lists = {**bench.lists.column, "C": bench.state.C, "Z": bench.state.Z, "W": bench.state.W,
                 "p": bench.p, "y": bench.y}
        del lists[name][bench.segments - 1:]
    return change


def no_highest(bench: Bench) -> None:
    """The list of highest figures cut to one entry less than the river has blocks."""
    del bench.highest[model.block_count(bench.segments) - 1:]


def old_shortened(name: str) -> Change:
    def change(bench: Bench) -> None:
        del bench.old.column[name][bench.segments - 1:]
    return change


def state_figure(name: str, at: int) -> Change:
    def change(bench: Bench) -> None:
        getattr(bench.state, name)[at] = HIGHEST + 1
    return change


def given(**attributes: Any) -> Change:
    """Other figures handed to the call."""
    def change(bench: Bench) -> None:
        for name, figure in attributes.items():
            setattr(bench, name, figure)
    return change


def in_state(**attributes: int) -> Change:
    """Another U or count in the state."""
    def change(bench: Bench) -> None:
        for name, figure in attributes.items():
            setattr(bench.state, name, figure)
    return change


def both(*changes: Change) -> Change:
    def change(bench: Bench) -> None:
        for each in changes:
            each(bench)
    return change


CALLS = ("start", "step", "report")
NOTHING_13, NOTHING_14, NOTHING_15 = (13, None), (14, None), (15, None)


def call_tests() -> Iterator[Check]:
    """Tests 13 to 15 of the four calls, one change at a time and some together."""
    def check(name: str, call: str, change: Change, wanted: Any) -> Check:
        return Check(f"{call}: {name}", outcome(call, change), wanted)

    def at_segment(number: int) -> Any:
        return (14, ("segment", number))

    too_long = sheets.write(sheets.plain()) + b"x"
    for call in ("load", *CALLS):
        yield check("as it is", call, given(), ACCEPTED)
        for name in COLUMNS:
            yield check(f"{name} too short", call, shortened(name), NOTHING_13)
    yield check("reach records too short", "load", given(records=[None] * 2), NOTHING_13)
    yield check("a bad sheet and a short list", "load", both(shortened("e"), given(sheet=too_long)), (4, None))
    for row in (0, 1, 3):
        yield check(f"row {row}", "load", given(row=row), ACCEPTED)
    for row in (4, sheets.HIGHEST_FIELD):
        yield check(f"row {row}, past the rows", "load", given(row=row), NOTHING_13)
        yield check("a bad sheet and a row past the rows", "load", given(row=row, sheet=too_long), (4, None))
    otr1 = sheets.write(sheets.plain())
    for row, wanted in ((0, ACCEPTED), (1, NOTHING_13), (sheets.HIGHEST_FIELD, NOTHING_13)):
        yield check(f"row {row} of OTR1", "load", given(row=row, sheet=otr1), wanted)
    twelve = given(row=2, sheet=sheets.write(sheets.filling(0, 334)))
    yield check("12 of a row before 13", "load", twelve, (12, ("segment", 1)))
    bands = sheets.plain_bands()
    for row, wanted in ((0, ACCEPTED), (3, ACCEPTED), (4, NOTHING_13)):
        yield check(f"row {row} of OTR3", "load", given(row=row, sheet=sheets.write(bands)), wanted)
    gap = given(row=4, sheet=sheets.write(bands.with_table(1, sheets.GAP)))
    yield check("19 before 13", "load", both(shortened("e"), gap), (19, ("reach", 2)))
    yield from old_set_tests(check)
    for call in CALLS:
        for name in ("C", "Z", "W"):
            yield check(f"{name} too short", call, shortened(name), NOTHING_13)
        for segments in (0, MOST_SEGMENTS + 1, 13):
            yield check(f"{segments} segments", call, given(segments=segments), NOTHING_13)
        yield check("fewer segments, the last g is not 0", call, given(segments=4), at_segment(4))
        yield check("last g", call, column("g", 8, 1), at_segment(9))
        yield check("an entry past the river", call, column("e", 9, sheets.HIGHEST_FIELD), ACCEPTED)
        for name in ("e", "l", "a", "k", "s", "b", "ks", "m", "h"):
            yield check(f"{name} over one whole", call, column(name, 3, ONE_WHOLE + 1), at_segment(4))
        yield check("Kd", call, column("Kd", 0, model.HIGHEST_KD + 1), at_segment(1))
        for name in ("CL", "CB", "start"):
            yield check(name, call, column(name, 2, HIGHEST + 1), at_segment(3))
        yield check("13 before 14", call, both(shortened("e"), column("Kd", 0, 5_000)), NOTHING_13)
        yield check("the lowest segment", call,
                    both(column("CL", 5, HIGHEST + 1), column("h", 4, ONE_WHOLE + 1)), at_segment(5))
        yield check("a segment before U", call,
                    both(given(U=HIGHEST + 1), in_state(U=HIGHEST + 1), column("Kd", 8, 1_001)), at_segment(9))
        overwritten = call == "start"
        for name in ("C", "Z", "W"):
            yield check(f"{name} too high", call, state_figure(name, 6),
                        ACCEPTED if overwritten else at_segment(7))
        for change in (in_state(U=HIGHEST + 1), in_state(count=MOST_STEPS + 1)):
            yield check("U or count of the state", call, change, ACCEPTED if overwritten else NOTHING_14)
    for call in ("start", "step"):
        yield check("U handed", call, given(U=HIGHEST + 1), NOTHING_14)
        yield check("highest figures too short", call, no_highest, NOTHING_13)
        yield check("13 of the highest figures before 14", call, both(no_highest, column("Kd", 0, 5_000)), NOTHING_13)
        yield check("14 skips the highest figures", call, given(highest=[sheets.HIGHEST_FIELD]), ACCEPTED)
    yield check("13 of the highest figures before 15", "step", both(no_highest, given(M=0)), NOTHING_13)
    yield check("highest figures too short", "report", no_highest, ACCEPTED)
    yield from search_call_tests(check)
    for name in ("p", "y"):
        yield check(f"working list {name} too short", "step", shortened(name), NOTHING_13)
    yield check("M 0", "step", given(M=0), NOTHING_15)
    yield check("M reached", "step", in_state(count=6), NOTHING_15)
    yield check("one step left", "step", in_state(count=5), ACCEPTED)
    yield check("M above 100,000", "step", given(M=MOST_STEPS + 1), NOTHING_14)
    for M, wanted in ((MOST_STEPS, NOTHING_15), (MOST_STEPS + 1, NOTHING_14)):
        yield check(f"100,000 steps done, M {M}", "step", both(given(M=M), in_state(count=MOST_STEPS)), wanted)
    for gauge, wanted in ((0, NOTHING_13), (10, NOTHING_13), (9, ACCEPTED)):
        yield check(f"segment {gauge}", "report", given(gauge=gauge), wanted)


def search_call_tests(check: Callable[[str, str, Change, Any], Check]) -> Iterator[Check]:
    """A search tests 13 of its two lists and of the segment count, and nothing else."""
    yield check("as it is", "search", given(), ACCEPTED)
    yield check("highest figures too short", "search", no_highest, NOTHING_13)
    yield check("C too short", "search", shortened("C"), NOTHING_13)
    for segments in (0, MOST_SEGMENTS + 1, 13):
        yield check(f"{segments} segments", "search", given(segments=segments), NOTHING_13)
    for name in ("Z", "W", "e", "Kd", "p"):
        yield check(f"{name} too short", "search", shortened(name), ACCEPTED)
    yield check("C too high", "search", state_figure("C", 3), ACCEPTED)
    yield check("a limit too high", "search", given(limit=sheets.HIGHEST_FIELD), ACCEPTED)
    yield check("Kd, U and count too high", "search",
                both(column("Kd", 0, 5_000), in_state(U=HIGHEST + 1, count=MOST_STEPS + 1)), ACCEPTED)


def old_set_tests(check: Callable[[str, str, Change, Any], Check]) -> Iterator[Check]:
    """Tests 13 and 14 of the set that a step is lent for its old side."""
    for name in SET:
        yield check(f"old {name} too short", "step", old_shortened(name), NOTHING_13)
        for call in ("start", "report"):
            yield check(f"old {name} too short", call, old_shortened(name), ACCEPTED)
        over = old_column(name, 3, ONE_WHOLE + 1)
        yield check(f"old {name} over one whole", "step", over, (14, ("segment", 4)))
        for lower, higher, segment in ((2, 5, 3), (5, 2, 3), (4, 4, 5)):
            change = both(old_column(name, lower, ONE_WHOLE + 1), column("Kd", higher, 1_001))
            yield check(f"old {name} at {lower}, Kd at {higher}", "step", change, (14, ("segment", segment)))
            change = both(old_column("h", lower, ONE_WHOLE + 1), column(name, higher, ONE_WHOLE + 1))
            yield check(f"old h at {lower}, {name} at {higher}", "step", change, (14, ("segment", segment)))
        yield check(f"old {name} past the river", "step", old_column(name, 9, sheets.HIGHEST_FIELD), ACCEPTED)
    yield check("the old set's last g", "step", old_column("g", 8, 1), (14, ("segment", 9)))
    yield check("13 of the old set before 14", "step", both(old_shortened("e"), column("Kd", 0, 5_000)), NOTHING_13)
    yield check("13 before 14 of the old set", "step", both(shortened("e"), old_column("h", 0, ONE_WHOLE + 1)),
                NOTHING_13)
    yield check("14 of the old set before U'", "step", both(given(U=HIGHEST + 1), old_column("m", 8, ONE_WHOLE + 1)),
                (14, ("segment", 9)))
    yield check("14 of the old set before 15", "step", both(given(M=0), old_column("m", 8, ONE_WHOLE + 1)),
                (14, ("segment", 9)))


def flow_row_tests() -> Iterator[Check]:
    """16 with its places, tests 10 to 12 with theirs, and what a sheet without its fourth section gives."""
    draft, top = sheets.plain_flows(), 20_000
    M = draft.header.M
    for rows, wanted in (
            ([(0, top)], 1), ([(1, top), (0, top)], 2), ([(M + 1, top)], 1), ([(1, top), (M + 1, top)], 2),
            ([(2, top), (1, top)], 2), ([(1, top), (1, top)], 2), ([(1, top), (3, top), (2, top)], 3),
            ([(3, top), (1, top), (2, top)], 2), ([(M, top), (M, top)], 2), ([(1, model.HIGHEST_FLOW + 1)], 1),
            ([(1, top), (2, top), (3, model.HIGHEST_FLOW + 1), (3, top)], 3),
            ([(1, top), (M + 1, top), (0, top)], 2)):
        yield Check(f"16: {rows}", answer(draft.with_flows(*rows)), (16, ("row", wanted)))
    for count, wanted in ((0, (3, None)), (1, ACCEPTED), (64, ACCEPTED), (65, (3, None))):
        rows = [(start, top) for start in range(1, count + 1)]
        yield Check(f"{count} flow rows", answer(draft.with_header(M=65).with_flows(*rows)), wanted)
    for fault in sheets.flow_faults():
        yield Check(fault.name, answer(fault.draft), (fault.number, ("segment", fault.segment)))
    yield from case_checks(chain(sheets.other_marks(draft), sheets.flow_rivers(), sheets.disordered_flows(draft)))


def flow_in_force_tests() -> Iterator[Check]:
    """The flow at a step, of sheets that load and of any bytes."""
    def check(name: str, sheet: bytes, step: int, wanted: int) -> Check:
        return Check(f"flow in force: {name}, step {step}", model.flow_in_force(sheet, step), wanted)

    draft = sheets.plain().with_header(M=9).with_flows((2, 10), (5, 20), (9, 30))
    sheet = sheets.write(draft)
    for step, wanted in ((0, 0), (1, 0), (2, 1), (4, 1), (5, 2), (8, 2), (9, 3), (10, 3), (2 ** 32 - 1, 3)):
        yield check("three rows", sheet, step, wanted)
        yield check("OTR1", sheets.write(sheets.plain()), step, 0)
        yield check("marked OTR1", model.MARK + sheet[4:], step, 0)
        yield check("marked OTR3", model.BAND_MARK + sheet[4:], step, wanted)
        yield check("with bands", sheets.write(draft.with_bands(sheets.good_tables()["32 bands"])), step, wanted)
        yield check("another mark", sheets.UNKNOWN_MARK + sheet[4:], step, 0)
        yield check("bytes added", sheet + b"\xff" * 9, step, wanted)
    one, three = (sheets.offset(draft, f"flow row {row} start") for row in (1, 3))
    count, gauges = (sheets.offset(draft, f"count of {records}") for records in ("flow rows", "gauges"))
    for cut, steps in ((count, (0, 0, 0)), (three, (3, 3, 3)), (three + 1, (0, 2, 3)), (one, (3, 3, 3)),
                       (4, (0, 0, 0))):
        for step, wanted in zip((0, 5, 9), steps):      # a start past the end is 0, and so is a count
            yield check(f"cut after {cut} bytes", sheet[:cut], step, wanted)
    disordered = sheets.write(draft.with_flows((7, 10), (3, 20), (8, 30), (4, 40)))
    for step, wanted in ((2, 0), (3, 2), (4, 4), (7, 4), (9, 4)):
        yield check("rows out of order", disordered, step, wanted)
    yield check("a count far past the end", sheets.put(sheet, count, 2 ** 32 - 1), 0, 2 ** 32 - 1)
    yield check("one row less than there are", sheets.put(sheet, count, 2), 9, 2)
    yield check("gauges far past the end", sheets.put(sheet, gauges, 2 ** 32 - 1), 9, 0)
    yield check("no bytes", b"", 5, 0)
    yield check("the mark alone", model.FLOW_MARK, 5, 0)


def case_checks(cases: Iterator[sheets.Case]) -> Iterator[Check]:
    """What the making of a case decides, and the twin's listing."""
    for case in cases:
        refusal = model.answer(case.sheet)
        yield Check(case.name, refusal.number if refusal else sheets.ACCEPTED, case.number)
        if case.twin:
            yield Check(f"{case.name}: its twin", model.listing(case.sheet), model.listing(case.twin))


def band_tests() -> Iterator[Check]:
    """19 with its places, the order of tests around it, the counts, and tests 10 to 12 by the bands."""
    draft, good = sheets.plain_bands(), sheets.good_tables()
    for fault in sheets.band_faults():
        yield Check(f"19: {fault.name}", answer(fault.draft), (19, ("reach", fault.reach)))
    for name, table in good.items():
        for reach in (0, 1, 2):
            yield Check(f"reach {reach + 1}: {name}", answer(draft.with_table(reach, table)), ACCEPTED)
    for count, wanted in ((0, ACCEPTED), (1, ACCEPTED), (MOST_BANDS, ACCEPTED), (MOST_BANDS + 1, (3, None))):
        table = sheets.bands_of(*sheets.seams(count)) if count else []
        yield Check(f"{count} bands", answer(draft.with_table(2, table)), wanted)
    for number in sheets.tests_of(draft):
        if number >= 5:
            places = {6: ("reach", 1), 8: ("row", 1), 9: ("row", 1), 16: ("row", 1), 19: ("reach", 1)}
            first = number if sheets.ORDER.index(number) < sheets.ORDER.index(19) else 19
            sheet = sheets.with_faults(draft, sorted({number, 19}), {}, {})
            refusal = model.answer(sheet)
            yield Check(f"{number} and 19", (refusal.number, refusal.place), (first, places.get(first)))
    for name in ("A", "D", "AS"):
        outside = model.REACH_RANGES[name].high + 1
        yield Check(f"own {name} of a reach with bands", answer(draft.with_reach(0, **{name: outside})), (6, ("reach", 1)))
        other = draft.with_reach(0, **{name: model.REACH_RANGES[name].low})
        yield Check(f"own {name} does not count", model.listing(sheets.write(other)), model.listing(sheets.write(draft)))
    for fault in sheets.band_flow_faults():
        yield Check(fault.name, answer(fault.draft), (fault.number, ("segment", fault.segment)))
        if fault.number > 10:
            yield Check(f"{fault.name}: without bands", answer(replace(fault.draft, bands=None)), ACCEPTED)
    yield from case_checks(chain(sheets.band_marks(draft), sheets.band_rivers(), sheets.disordered_flows(draft)))


def every_flow_once(bands: list[Band], near: int) -> bool:
    """Tried flow by flow up to there, and at the top; no band begins or ends between."""
    flows = (*range(near + 2), HIGHEST_FLOW - 1, HIGHEST_FLOW)
    return all(sum(Q in range(band.lowest, band.highest + 1) for band in bands) == 1 for Q in flows)


def table_tests() -> Iterator[Check]:
    """19 of small tables beside all flows tried one by one, whole tables and such with an end moved or a band doubled."""
    rng, near, seen = random.Random("tables"), 12, set()
    for _ in range(600):
        lows = rng.sample(range(1, near + 1), rng.randint(0, 5))
        bands = sheets.covering(lows, lambda: (9, 9, 9))
        if rng.random() < 0.6:
            at, name, more = rng.randrange(len(bands)), rng.choice(("lowest", "highest")), rng.choice((-2, -1, 1, 2))
            moved = getattr(bands[at], name) + more
            bands[at] = bands[at]._replace(**{name: max(0, min(HIGHEST_FLOW, moved))})
        if rng.random() < 0.1:
            bands.append(rng.choice(bands))
        rng.shuffle(bands)
        right = every_flow_once(bands, near) and all(band.lowest <= band.highest for band in bands)
        seen.add(right)
        yield Check(f"19: {[tuple(band[:2]) for band in bands]}", model.bands_fault(bands), not right)
    yield Check("19: tables right and wrong", seen, {False, True})


def band_bench() -> Iterator[Check]:
    """Half-step numbers by bands, worked out by hand; then each flow's set beside that of a river without bands."""
    edge = sheets.parted(500, (100, 50, 100), (200, 50, 50))
    brook = sheets.brook(1, 499, ALPHA=100_000_000, qin=1_000_000, qout=1_000_000, A=7, D=7, AS=7).with_flows((1, 500))
    rivers = model.rivers_of(model.read_sheet(sheets.write(brook.with_bands(edge))))
    for flow, river, wanted in zip((499, 500), rivers, ((402_384_749, 53_687_091, 53_687_091, 53_687_091),
                                                        (335_544_320, 26_843_546, 53_687_091, 214_748_365))):
        part = river[0].numbers
        yield Check(f"band bench: e, l, a and b at {flow}", (part.e, part.l, part.a, part.b), wanted)
    # flows of 977 and 931: AD is 3,000,000 above the edge and 1,000,000 below it
    split = sheets.parted(950, (1_000, 1_000, 9), (2_000, 1_500, 9))
    river = top_river(sheets.slope(1_000, 2).with_header(dt=100).with_flows((1, 1_000)).with_bands(split))
    yield Check("band bench: e and g beside another band", [(part.numbers.e, part.numbers.g) for part in river],
                [(93_643_709, 40_574_019), (132_365_523, 0)])
    rng, changes, parted = random.Random("bands"), 0, 0
    for _ in range(60):
        draft = sheets.good_river(rng, rng.randint(1, 30), rng.randint(1, 6), sheets.draw_band_river)
        found = model.read_sheet(sheets.write(draft))
        tops = [header.top_flow for header in model.headers(found)]
        for top, river in zip(tops, model.rivers_of(found)):
            yield Check(f"the set of {top} mL/s: {sheets.describe(draft)}", river, top_river(sheets.by_segment(draft, top)))
        figures = [[(reach.A, reach.D, reach.AS) for reach in sheets.by_segment(draft, top).reaches] for top in tops]
        changes += any(one != other for one, other in zip(figures, figures[1:]))
        parted += any(len(set(each)) > len(draft.reaches) for each in figures)
    yield Check("drawn rivers change band at a row, and have reaches in several bands", min(changes, parted) > 5, True)


def lateral_bench() -> Iterator[Check]:
    """The lines of the proved table LateralBench (crates/model/specs), and flows beside the same in fractions."""
    for top, segment in ((22, 1), (23, 2)):
        yield Check(f"lateral bench: {top} at the top", answer(sheets.slope(top, 2)), (10, ("segment", segment)))
    yield Check("lateral bench: outflow", gains(6), [-23, -69, -114, -160, -205, -250])
    slope = sheets.slope(1_000, 3)
    reach = slope.reaches[0]
    for name, dx, reaches, wanted in (
            ("inflow", 1_000, [reach._replace(qin=4_545, qout=0)], [1_022, 1_068, 1_113]),
            ("fed below", 1_000, [reach._replace(segments=1), reach._replace(segments=2, qin=30_100, qout=0)],
             [977, 1_105, 1_406]),
            ("an odd sum", 409, [reach._replace(segments=1, qin=11, qout=500)], [998])):
        found = model.flows(slope.header._replace(dx=dx), model.reach_of_segments(reaches))
        yield Check(f"lateral bench: {name}", found, wanted)
    river = top_river(sheets.slope(1_000, 2).with_header(dt=100))
    yield Check("lateral bench: e and g", [(part.numbers.e, part.numbers.g) for part in river],
                [(79_913_235, 27_460_947), (78_678_432, 0)])
    rng = random.Random("lateral")
    for _ in range(200):
        draft = sheets.draw_river(rng, rng.randint(1, 30), 1)
        found = model.flows(draft.header, model.reach_of_segments(draft.reaches))
        wanted = [math.floor(draft.header.top_flow + gain) for gain in sheets.middle_gains(draft)]
        yield Check(f"flows at the middle: {sheets.describe(draft)}", found, wanted)


def clamp_tests() -> Iterator[Check]:
    """The extreme river that shows where the clamp stands: inside the upward pass it would give other figures."""
    draft = sheets.above_the_highest()
    river = top_river(draft)
    C = Z = W = [part.start for part in river]
    apart = False
    for _ in range(draft.header.M):
        swept = model.sweep(pairs(river, river), C, Z, W, HIGHEST, HIGHEST)
        inside = min(HIGHEST, swept.y[-1])
        for p, y, figure in list(zip(swept.p, swept.y, swept.C))[-2::-1]:
            inside = min(HIGHEST, y + model.nearest(p * inside, ONE_WHOLE))
            apart = apart or inside != figure
        C, Z, W = swept.C, swept.Z, swept.W
    yield Check("C' above the highest inside the upward pass shows", apart, True)


def flow_bench() -> Iterator[Check]:
    """The step of the proved table FlowBench (crates/model/specs), and its flows and pairs."""
    old = [Numbers(100_000_000, 50_000_000, 30_000_000, 70_000_000, 200_000_000, 10_000_000, 20_000_000, 300_000_000,
                   40_000_000, 60_000_000),
           Numbers(90_000_000, 0, 20_000_000, 80_000_000, 100_000_000, 15_000_000, 30_000_000, 200_000_000,
                   50_000_000, 70_000_000)]
    new = [Numbers(160_000_000, 20_000_000, 10_000_000, 30_000_000, 150_000_000, 5_000_000, 60_000_000, 100_000_000,
                   90_000_000, 20_000_000),
           Numbers(120_000_000, 0, 25_000_000, 40_000_000, 180_000_000, 8_000_000, 10_000_000, 150_000_000,
                   20_000_000, 30_000_000)]
    river = [Pair(*numbers, CL, CB) for *numbers, CL, CB in zip(old, new, (5_000_000, 100_000), (4_000_000, 250_000))]
    swept = model.sweep(river, [1_000_000, 2_000_000], [3_000_000, 500_000], [700_000, 900_000], 2_500_000, 1_500_000)
    for name, found, wanted in zip(("C'", "Z'", "W'", "p", "y"), swept, (
            [1_454_210, 1_568_422], [2_459_965, 737_443], [840_935, 1_161_708], [16_346_061, 0],
            [1_430_333, 1_568_422])):
        yield Check(f"flow bench: {name}", found, wanted)
    draft = sheets.brook(1, 0, segments=2).with_header(M=4).with_flows((1, 400), (3, 1_000))
    rivers = model.rivers_of(model.read_sheet(sheets.write(draft)))
    yield Check("flow bench: e", [each[0].numbers.e for each in rivers], [268_435_456, 375_809_638, 536_870_912])


def pair_tests() -> Iterator[Check]:
    """A step between two sets that differ in every number lies within 6 of the exact one."""
    rng = random.Random("pairs")
    farthest = Fraction(0)
    for _ in range(60):
        segments = rng.randint(1, 5)
        old, new = (top_river(sheets.good_river(rng, segments, 1)) for _ in range(2))
        course = exact.Course(model.read_sheet(sheets.write(sheets.plain_flows())))
        course.rivers, course.starts = [old, new], [1]
        U, new_U = sheets.concentration(rng), sheets.concentration(rng)
        river = exact.ExactRiver(course, U)
        river.step(new_U)
        figures = [part.start for part in old]
        swept = model.sweep(pairs(old, new), figures, figures, figures, U, new_U)
        found = [exact.distance(figure, around) for at in range(segments)
                 for figure, around in zip((swept.C[at], swept.Z[at], swept.W[at]), river.figures(at))]
        farthest = max(farthest, *found)
        yield Check("a pair of sets: within 6", max(found) <= exact.ALLOWED, True)
    yield Check("a pair of sets: not exact", farthest > 0, True)


def upstream_tests() -> Iterator[Check]:
    """U at a step, and the tests of the call that finds it."""
    def check(name: str, starts: list[int], concentrations: list[int], M: int, step: int,
              wanted: Any) -> Check:
        try:
            found: Any = model.upstream(starts, concentrations, M, step)
        except Refusal as refusal:
            found = (refusal.number, refusal.place)
        return Check(f"upstream: {name}", found, wanted)

    starts, figures = [0, 3, 9], [10, 30, 90]
    for step, wanted in ((0, 10), (2, 10), (3, 30), (8, 30), (9, 90), (10, 90), (2 ** 32 - 1, 90)):
        yield check(f"step {step}", starts, figures, 9, step, wanted)
    yield check("no row", [], [], 9, 0, (3, None))
    yield check("257 rows", list(range(257)), [0] * 257, 999, 0, (3, None))
    yield check("256 rows", list(range(256)), list(range(256)), 255, 255, 255)
    yield check("lists of different length", [0, 1], [5], 9, 0, (3, None))
    yield check("a start past M", starts, figures, 8, 0, (8, ("row", 3)))
    yield check("first start", [1, 3], [0, 0], 9, 5, (8, ("row", 1)))
    yield check("starts do not rise", [0, 3, 3], figures, 9, 5, (8, ("row", 3)))
    yield check("concentration", [0, 3, 9], [0, HIGHEST + 1, 0], 9, 0, (8, ("row", 2)))


def accepted_calls() -> Iterator[Check]:
    """What accepted calls give and write, and what they leave."""
    bench = Bench()
    draft = sheets.plain_flows()
    begin = [sheets.offset(draft, name) for name in ("row 1 start", "gauge 1", "flow row 1 start")]
    yield Check("load: result", bench.loaded, (6, 2, 9, begin[0], 3, begin[1], 3, begin[2], 3))
    otr1 = model.load(sheets.write(sheets.plain()), 0, Lists(9), [None] * 3)
    yield Check("load: result of OTR1", otr1, (6, 2, 9, begin[0], 3, begin[1], 3, 0, 0))
    yield Check("load: reach records", bench.records, [*draft.reaches, None])
    records: list = [None] * 3
    otr3 = model.load(sheets.write(sheets.plain_bands()), 0, Lists(9), records)
    yield Check("load: result of OTR3, whose bands stand behind all that it tells of", otr3, bench.loaded)
    yield Check("load: reach records of OTR3, as typed", records, draft.reaches)
    for row, flow in ((0, 20_000), (1, 25_000), (2, 8_000), (3, 60_000)):
        lists, alone = Lists(9), Lists(9)
        model.load(bench.sheet, row, lists, [None] * 3)
        model.load(sheets.write(sheets.plain().with_header(top_flow=flow)), 0, alone, [None] * 3)
        yield Check(f"load: the set of flow {row}", lists.column, alone.column)
    yield Check("load: entries past the river", {each[9] for each in bench.lists.column.values()}, {0})
    yield Check("start: entries past the river", bench.state.C[9:], [7, 7])
    yield Check("start: figures", bench.state.W[:9], [1_000] * 3 + [3_000] * 3 + [1_000] * 3)
    yield Check("start: highest figures", list(bench.highest), [3_000, 8])
    yield Check("search: the segments above 2,999", bench.search(), {4, 5, 6})
    bench.U = 8_000
    bench.step()
    yield Check("step: highest figures", list(bench.highest), [max(bench.state.C[:9]), 8])
    yield Check("step: U and count", (bench.state.U, bench.state.count), (8_000, 1))
    yield Check("step: entries past the river", (bench.state.Z[9:], bench.p[9:]), ([7, 7], [0]))
    yield Check("report: Kd x W", bench.report()[2], 5 * bench.state.W[0])
    bench.start()
    yield Check("start again: count", bench.state.count, 0)


def pool_tests() -> Iterator[Check]:
    """17 and 18 of tables, the order of an opening's tests, and what openings, steps and closings leave."""
    def told(call: Callable[..., Any], *handed: Any) -> Any:
        try:
            call(*handed)
        except Refusal as refusal:
            return refusal.number, refusal.place
        return ACCEPTED

    closed = Slot(0, 9, 2 ** 32 - 1, 9, 9)
    table = [Slot(1, 10, 4, 5, 1), closed, Slot(7, 2, 3, 6, 2), Slot(1, 14, 1_000, 7, 3), *[closed] * 4]
    for number, segments, wanted in ((2, 17, ACCEPTED), (2, 18, (17, None)), (8, 1, ACCEPTED), (0, 1, (17, None)),
                                     (9, 1, (17, None)), (1, 1, (17, None)), (3, 1, (17, None))):
        yield Check(f"room: {segments} as {number}", told(model.test_room, table, number, segments), wanted)
    for number, wanted in ((1, ACCEPTED), (3, ACCEPTED), (2, (18, None)), (0, (18, None)), (9, (18, None))):
        yield Check(f"river {number}", told(model.test_river, table, number), wanted)
    for first, segments, wanted in ((0, 2, ACCEPTED), (0, 3, (18, None)), (4, 1, (18, None)), (5, 5, ACCEPTED),
                                    (5, 6, (18, None)), (1_014, 10, ACCEPTED), (1_014, 11, (18, None)),
                                    (1_013, 1, (18, None)), (20, 0, ACCEPTED), (1_024, 0, ACCEPTED),
                                    (1_025, 0, (18, None)), (2 ** 32 - 1, 1, (18, None)), (2, 2 ** 32 - 1, (18, None))):
        beside = replaced(table, 6, opened=1, first=first, segments=segments)
        yield Check(f"beside others from {first} on {segments}", told(model.test_table, beside), wanted)

    counted = {name: list(range(1_026)) for name in "CZW"}
    after, lists = after_opening(table, counted, 2, [7_000, 8_000], 99)
    yield Check("an opening: the table", after, [Slot(1, 3, 4, 5, 1), Slot(1, 1_007, 2, 99, 0), Slot(7, 0, 3, 6, 2),
                                                 Slot(1, 7, 1_000, 7, 3), *[closed] * 4])
    yield Check("an opening: the shared lists", [lists[name] for name in "CZW"],
                [[2, 3, 4, *range(10, 1_014), 7_000, 8_000, *range(1_009, 1_026)]] * 3)
    moved, lists = after_moving(table, counted, 3, State([51, 52, 53], [61, 62, 63], [71, 72, 73], 8, 4))
    yield Check("a step: the table", moved, [*table[:2], Slot(7, 2, 3, 8, 4), *table[3:]])
    yield Check("a step: Z", lists["Z"], [0, 1, 61, 62, 63, *range(5, 1_026)])
    yield Check("a closing", after_closing(table, 3), [*table[:2], Slot(0, 2, 3, 6, 2), *table[3:]])

    sheet, lists, records, high = sheets.write(sheets.plain()), Lists(9), [None] * 3, [2 ** 32 - 1] * 2
    gap = sheets.write(sheets.plain_bands().with_table(2, sheets.GAP))
    wide = [Slot(1, 1_000, 25, 0, 0), *[closed] * 7]
    full = [Slot(1, 0, 1_016, 0, 0), *[closed] * 7]
    for name, handed, wanted in (
            ("4 before 17", (9, sheet + b"x", 0, lists, records, 0, [], wide, HIGHEST + 1), (4, None)),
            ("19 before 17", (9, gap, 0, lists, records, 0, [], wide, HIGHEST + 1), (19, ("reach", 3))),
            ("17 before 18", (1, sheet, 0, lists, records, 0, [], wide, HIGHEST + 1), (17, None)),
            ("17 by one segment", (2, sheet, 0, lists, records, 1_024, [], full, 0), (17, None)),
            ("18 before 13", (2, sheet, 1, Lists(8), records, 0, [], wide, HIGHEST + 1), (18, None)),
            ("18 before 13 of the highest figures", (2, sheet, 0, lists, records, 1_024, [], wide, 0), (18, None)),
            ("13 of a list before 14", (2, sheet, 0, Lists(8), records, 1_024, high, table, HIGHEST + 1), (13, None)),
            ("13 of a row before 14", (2, sheet, 1, lists, records, 1_024, high, table, HIGHEST + 1), (13, None)),
            ("13 of a shared list before 14", (2, sheet, 0, lists, records, 1_023, high, table, HIGHEST + 1),
             (13, None)),
            ("13 of the highest figures before 14", (2, sheet, 0, lists, records, 1_024, [], table, HIGHEST + 1),
             (13, None)),
            ("14", (2, sheet, 0, lists, records, 1_024, high, table, HIGHEST + 1), (14, None)),
            ("accepted", (2, sheet, 0, lists, records, 1_024, high, table, HIGHEST), ACCEPTED)):
        yield Check(f"an opening: {name}", told(model.Pool().open, *handed), wanted)
    yield Check("an opening: the highest figures", high, [3_000, 2 ** 32 - 1])


def search_bench() -> Iterator[Check]:
    """The lines of the proved table SearchBench (crates/model/specs), and what searches may answer."""
    blocks = [model.block_count(n) for n in (1, 15, 16, 17, 31, 32, 33, 1_023, 1_024)]
    yield Check("search bench: blocks", blocks, [1, 1, 1, 2, 2, 2, 3, 64, 64])
    counted = list(range(10, 50))
    for n, wanted in ((1, [10]), (16, [25]), (17, [25, 26]), (32, [25, 41]), (33, [25, 41, 42])):
        yield Check(f"search bench: of {n} segments", model.highest_figures(counted[:n]), wanted)
    yield Check("search bench: not the last", model.highest_figures([5, 9, 2]), [9])

    lists, highest = Lists(1), [7, 8]
    lists.fill([Segment(Numbers(0, 0, 0, 8, 80_000_000, 0, 0, 8, 0, 80_000_000), 0, 0, 0, 0)])
    y = [0]
    model.step(lists, lists, 1, State([HIGHEST], [HIGHEST], [HIGHEST], HIGHEST), highest, [0], y, HIGHEST, 1)
    yield Check("search bench: before the cut", y, [HIGHEST + 1])
    yield Check("search bench: of the cut figures", highest, [HIGHEST, 8])

    C = [1] * 15 + [6] + [9, 2] + [9] * 22      # 18 segments; what lies behind the river is not looked at
    for name, told, limit, wanted in (
            ("true figures", [6, 9], 5, {16, 17}), ("at the limit", [6, 9], 6, {17}), ("none", [6, 9], 9, {NONE_ABOVE}),
            ("one block not entered", [5, 9], 5, {17}), ("no block entered", [5, 5], 5, {NONE_ABOVE}),
            ("entered for nothing", [2 ** 32 - 1, 5], 6, {NONE_ABOVE}), ("all above 0", [1, 1], 0, set(range(1, 19))),
            ("the highest limit", [2 ** 32 - 1] * 2, 2 ** 32 - 1, {NONE_ABOVE})):
        yield Check(f"a search: {name}", model.search(18, C, told, limit), wanted)

    table = [Slot(0, 0, 0, 0, 0)] * 2 + [Slot(1, 1, 2, 5, 3), Slot(1, 3, 0, 5, 3)] + [Slot(0, 0, 0, 0, 0)] * 4
    pool = model.Pool.of(table, [9, 3, 4, 9], [0] * 4, [0] * 4)
    for name, number, shared, told, wanted in (
            ("18 before 13", 2, 0, [], 18), ("13 of the shared list", 3, 1_023, [4], 13),
            ("13 of the highest figures", 3, 1_024, [], 13), ("no segment", 4, 1_024, [4], 13),
            ("on its stretch", 3, 1_024, [4], {2})):
        try:
            found: Any = pool.search(number, shared, told, table, 3)
        except Refusal as refusal:
            found = refusal.number
        yield Check(f"a search on a pool: {name}", found, wanted)


def forecast_tests() -> Iterator[Check]:
    """T10's river ahead of its start: 1,035 and 207 after one step; each ground of 13, 14 and 20, and their order."""
    sheet = sheets.write(replace(sheets.two_segment_brook().with_header(M=4), gauges=[2]))
    start = State([0, 0], [0, 0], [0, 0], 3_000)

    def room(segments: int = 2, **lengths: int) -> model.Room:
        """Lists that hold 7; those named are so long."""
        long = {**dict.fromkeys("CZWpy", segments + 1), "highest": 2, "sides": model.SIDES * (segments + 1) + 5}
        lists = {name: [7] * length for name, length in {**long, **lengths}.items()}
        return model.Room(State(lists["C"], lists["Z"], lists["W"], 7, 7), lists["highest"], lists["sides"], lists["p"],
                          lists["y"])

    def told(live: State, gauge: int, limit: int, horizon: int, lent: model.Room, segments: int = 2, on: bytes = sheet,
             highest: tuple[int, ...] = (9,)) -> Any:
        try:
            return model.forecast(on, segments, live, list(highest), lent, gauge, limit, horizon)
        except Refusal as refusal:
            return (refusal.number, refusal.place)

    for limit, horizon, wanted in ((206, 4, 1), (206, 1, 1), (206, 0, None), (207, 1, None), (207, 4, 2), (0, 4, 1),
                                   (2 ** 32 - 1, 4, None), (0, 5, (20, None)), (0, 2 ** 32 - 1, (20, None))):
        yield Check(f"a forecast: limit {limit}, horizon {horizon}", told(start, 2, limit, horizon, room()), wanted)
    lent = room()
    told(start, 2, 206, 4, lent)
    yield Check("a forecast: the copies", lent.copy, State([1_035, 207, 7], [0, 0, 7], [0, 0, 7], 3_000, 1))
    yield Check("a forecast: the highest figures of the copies", lent.highest, [1_035, 7])
    yield Check("a forecast: the river stays", start, State([0, 0], [0, 0], [0, 0], 3_000))
    yield Check("T11: p of segment 1 by a forecast", lent.p, [178_956_971, 0, 7])
    lists = Lists(3, 7)
    model.load(sheet, 0, lists, [None])
    new = [figure for column in lists.column.values() for figure in column]
    yield Check("a forecast: both sides", lent.sides, [*new[:3 * len(SET)], *new, *[7] * 5])
    lent = room()
    told(start, 2, 0, 0, lent)
    yield Check("a forecast of no step: the copies, and highest figures as lent",
                (lent.copy, lent.highest), (State([0, 0, 7], [0, 0, 7], [0, 0, 7], 3_000, 0), [9, 7]))
    yield Check("a forecast of no step: both sides, p and y", (lent.sides, lent.p, lent.y),
                ([*new[:3 * len(SET)], *new, *[7] * 5], [7] * 3, [7] * 3))

    over = replace(start, C=[0, HIGHEST + 1])
    for name, found, wanted in (
            ("a sheet's refusal first", told(over, 9, 0, 9, room(C=0), 3, sheet + b"x"), (4, None)),
            ("another count than the sheet's", told(over, 9, 0, 9, room(3), 3), (13, None)),
            ("fewer segments than the sheet's", told(start, 2, 0, 0, room(), 1), (13, None)),
            ("no segment", told(start, 2, 0, 0, room(), 0), (13, None)),
            *((f"13 of {name}", told(over, 9, 0, 9, room(**{name: length - 1})), (13, None))
              for name, length in (("C", 2), ("Z", 2), ("W", 2), ("p", 2), ("y", 2), ("highest", 1), ("sides", 48))),
            ("just enough", told(start, 2, 206, 1, room(C=2, Z=2, W=2, p=2, y=2, highest=1, sides=48)), 1),
            ("13 of the live highest figures", told(start, 2, 0, 0, room(), highest=()), (13, None)),
            ("13 of a live list", told(replace(start, Z=[0]), 2, 0, 0, room()), (13, None)),
            ("14 of a segment", told(over, 9, 0, 9, room()), (14, ("segment", 2))),
            ("14 of the lowest segment", told(replace(over, W=[HIGHEST + 1, 0], U=HIGHEST + 1), 9, 0, 9, room()),
             (14, ("segment", 1))),
            ("14 of U", told(replace(start, U=HIGHEST + 1), 9, 0, 9, room()), (14, None)),
            ("14 of the count", told(replace(start, count=MOST_STEPS + 1), 2, 0, 0, room()), (14, None)),
            ("20 of a gauge in the river", told(start, 1, 0, 0, room()), (20, None)),
            ("20 of a gauge outside", told(start, 3, 0, 0, room()), (20, None)),
            ("20 of the count alone", told(replace(start, count=5), 2, 0, 0, room()), (20, None)),
            ("never 15", told(replace(start, count=4), 2, 0, 0, room()), None)):
        yield Check(f"a forecast: {name}", found, wanted)

    flowing = sheets.plain_flows()          # rows at steps 1, 3 and 6; U' of the rows, whatever the river was fed
    found, rivers = model.rivers_on(sheets.write(flowing))
    state = ahead = State([5] * 9, [6] * 9, [8] * 9, 9, 2)
    lent = room(9)
    for flows, U in (((1, 2), 900_000), ((2, 2), 900_000), ((2, 2), 0), ((2, 3), 0)):
        swept = model.sweep(pairs(*(rivers[flow] for flow in flows)), ahead.C, ahead.Z, ahead.W, ahead.U, U)
        ahead = State(*swept[:3], U, ahead.count + 1)
    yield Check("a forecast over flow rows", told(state, 9, HIGHEST, 4, lent, 9, sheets.write(flowing)), None)
    yield Check("a forecast over flow rows: the copies", (lent.copy.C[:9], lent.copy.U, lent.copy.count),
                (ahead.C, 0, 6))
    e = [part.numbers.e for part in rivers[3]]
    yield Check("a forecast over flow rows: the set of the last", (lent.sides[:9], lent.sides[100:109]), (e, e))

    table = [Slot(1, 3, 2, 3_000, 0), Slot(1, 2, 1, 0, 0), *[Slot(0, 0, 0, 0, 0)] * 6]
    pool = model.Pool.of(table, [9, 9, 9, 0, 0, 9], [9, 9, 9, 0, 0, 9], [9, 9, 9, 0, 0, 9])
    for name, number, on, shared, slots, wanted in (
            ("a sheet's refusal before 18", 9, sheet + b"x", 0, table, 4), ("18 before 13", 3, sheet, 0, table, 18),
            ("18 of the table", 1, sheet, 0, replaced(table, 2, first=3), 18),
            ("13 of the shared lists", 1, sheet, 1_023, table, 13),
            ("another river's sheet", 2, sheet, 1_024, table, 13), ("on its stretch", 1, sheet, 1_024, table, 1)):
        try:
            step: Any = pool.forecast(number, on, shared, [9], slots, room(), 2, 206, 4)
        except Refusal as refusal:
            step = refusal.number
        yield Check(f"a forecast on a pool: {name}", step, wanted)


def bracket_tests() -> Iterator[Check]:
    """The brackets hold the fractions and are narrow, on small rivers."""
    rng = random.Random("brackets")
    for case in chain(*(sheets.small_rivers(rng, 12, draw) for draw in sheets.DRAWERS)):
        solved, bracketed = (exact.SheetsRiver(case.sheet, kind) for kind in ("fractions", "brackets"))
        for river in (solved, bracketed):
            river.step_to(river.M)
        segments = len(solved.course.river)
        found = [around.low <= figure.low <= around.high <= around.low + Fraction(1, 2 ** 64)
                 for at in range(segments)
                 for figure, around in zip(solved.exact.figures(at), bracketed.exact.figures(at))]
        yield Check(f"brackets: {case.name}", all(found) and len(found) == 3 * segments, True)


def checks() -> Iterator[Check]:
    yield from bench_figures()
    yield from accepted_calls()
    yield from call_tests()
    yield from flow_row_tests()
    yield from flow_in_force_tests()
    yield from band_tests()
    yield from table_tests()
    yield from band_bench()
    yield from upstream_tests()
    yield from flow_bench()
    yield from lateral_bench()
    yield from clamp_tests()
    yield from pair_tests()
    yield from pool_tests()
    yield from search_bench()
    yield from forecast_tests()
    yield from bracket_tests()
