"""Tests the library for C over its boundary, call by call.

    python3 tests/test_library.py PATH_TO_ARCHIVE [--seed N] [--long [--minutes N]]

Loadings, starts, steps, reports, searches and lookups of U and of the flow, accepted and refused, are put to the
library and to the model.  After each call every byte that was lent is compared, and the figures are held to the exact
river fed the same calls: at most 6 x n, sediment 6 x n x Kd.  Then the examples are run, power failures and all, what a
search reads is seen, the stack that the calls take is measured, and what the archive needs from outside is listed.
The exit status is 0 only when every group ran, showed every answer that it must and agreed.
"""
from __future__ import annotations

import random
import re
import subprocess
import sys
import textwrap
from collections.abc import Iterator
from dataclasses import dataclass, replace
from itertools import chain, islice, product
from pathlib import Path
from typing import NamedTuple, Optional

import exact
import groups
import model
import reads
import searches
import sheets
import stack
from calls import ABOVE, ACCEPTED, LISTS, Caller, Change, Difference, Run, Tally, entries
from forecasts import states
from groups import MOST_SHOWN, Group, Trial, say
from library import CALLS, INCLUDE, OLD, READINGS, ROOT, STRICT, U32, Library, compiled
from model import (COLUMNS, HIGHEST, HIGHEST_KD, MOST_BANDS, MOST_BLOCKS, MOST_FLOW_ROWS, MOST_REACHES, MOST_RIVERS,
                   MOST_ROWS, MOST_SEGMENTS, MOST_STEPS, ONE_WHOLE, SET, Row, flow_row_count_at, row_count_at)
from sheets import HIGHEST_FIELD

NEEDED = {"memcpy"}                 # C functions

# The groups


def any_lengths(rng: random.Random, sheet: bytes) -> tuple[list[int], int]:
    """Lengths for the lists of a loading: long enough, or some of them short; of a bad sheet, any."""
    try:
        reaches = model.walk(model.Walk(sheet)).reaches
        n = min(model.segment_count(reaches), MOST_SEGMENTS)
        count = len(reaches)
    except (model.Refusal, MemoryError):
        n, count = rng.randrange(4), rng.randrange(4)
    lengths = [n + rng.randrange(3) for _ in COLUMNS]
    if rng.random() < 0.2:
        for at in rng.sample(range(len(COLUMNS)), rng.randint(1, 3)):
            lengths[at] = rng.choice((0, max(0, n - 1), rng.randint(0, n)))
    records = count + rng.choice((0, 0, 1, 2, -1 if rng.random() < 0.3 else 0))
    return lengths, max(0, min(records, MOST_REACHES + 2))


def any_row(rng: random.Random, sheet: bytes) -> int:
    """A flow row's number: nearly always one that the sheet has, or 0."""
    count = 0
    if model.has_flow_rows(sheet):
        count = min(model.field_at(sheet, flow_row_count_at(sheet)), MOST_FLOW_ROWS)
    if rng.random() < 0.85:
        return rng.choice((0, count, rng.randint(0, count)))
    return rng.choice((count + 1, MOST_FLOW_ROWS + 1, 2 ** 31, HIGHEST_FIELD))


def any_steps(rng: random.Random, sheet: bytes) -> Iterator[int]:
    """Steps to ask the flow at: 0 and the last, and each row's with its neighbours."""
    yield from (0, 1, HIGHEST_FIELD, rng.randint(0, HIGHEST_FIELD))
    begin = flow_row_count_at(sheet) + model.FIELD
    for at in rng.sample(range(MOST_FLOW_ROWS), 3) + [0]:
        start = model.field_at(sheet, begin + 2 * model.FIELD * at)
        yield from (max(0, start - 1), start, min(start + 1, HIGHEST_FIELD))


def loading(case: sheets.Case) -> Trial:
    """One loading, then the rows, the gauges, the flow at steps, dt and dx of the same bytes, accepted or not."""
    def trial(library: Library, rng: random.Random, tally: Tally) -> None:
        caller = Caller(library, rng, tally)
        lengths, records = any_lengths(rng, case.sheet)
        caller.load(case.sheet, lengths, records, case.name, any_row(rng, case.sheet))
        for j in any_steps(rng, case.sheet):
            caller.flow(j)
        count = min(model.field_at(case.sheet, row_count_at(case.sheet)), MOST_ROWS)
        caller.rows(*(max(0, count + rng.choice((0, 0, 0, 1, -1))) for _ in range(2)))
        for j in (0, rng.randrange(40), rng.choice((HIGHEST_FIELD, 2 ** 63, 2 ** 64 - 1))):
            caller.gauge(j)
        caller.header_field("dt")
        caller.header_field("dx")
    return trial


def every_set(case: sheets.Case) -> Trial:
    """A loading of each flow of a sheet, in a large river of some, one row past them, and the flow at every step."""
    def trial(library: Library, rng: random.Random, tally: Tally) -> None:
        caller = Caller(library, rng, tally)
        found = model.read_sheet(case.sheet)
        n, rows = model.segment_count(found.reaches), len(found.flow_rows)
        numbers = range(rows + 1) if n * rows < MOST_SEGMENTS else rng.sample(range(rows + 1), min(3, rows + 1))
        for row in (*numbers, rows + 1, HIGHEST_FIELD):
            lengths = [n + rng.randrange(3) for _ in COLUMNS]
            caller.load(case.sheet, lengths, len(found.reaches), case.name, row)
        for j in range(min(found.header.M, 100) + 3):
            caller.flow(j)
    return trial


def wrong_pairs(case: sheets.Case) -> Trial:
    """A step with each list of its old set too short, each number of either set too high, and both at once."""
    def trial(library: Library, rng: random.Random, tally: Tally) -> None:
        run = Run(library, rng, tally, case.sheet, case.exact)
        run.start(run.n, 5, {})
        run.begin(5)
        run.lend_next_pair()
        for name in LISTS:
            short = {name: entries(name, run.n) - 1}
            run.step(run.n, 7, MOST_STEPS, short)
            run.step(run.n, HIGHEST + 1, MOST_STEPS, short)

        def changed(*changes: Change) -> None:
            before = {change.name: list(run.shelf.content[change.name]) for change in changes}
            for change in changes:
                content = list(run.shelf.content[change.name])
                content[change.at] = change.figure
                run.shelf.put(change.name, content)
            if run.step(run.n, 7, MOST_STEPS, {}):
                raise Difference(f"accepted with {changes}")
            for name, content in before.items():
                run.shelf.put(name, content)

        over, last = ONE_WHOLE + 1, run.n - 1
        for name, old_name in zip(SET, OLD):
            for at in {0, last, rng.randrange(run.n)}:
                changed(Change(old_name, at, over))
                changed(Change(old_name, at, HIGHEST_FIELD))
            lower, higher = sorted(rng.choices(range(run.n), k=2))
            changed(Change(old_name, lower, over), Change(name, higher, over))
            changed(Change(old_name, higher, over), Change(name, lower, over))
            changed(Change(old_name, lower, over), Change("Kd", higher, HIGHEST_KD + 1))
            changed(Change(old_name, higher, over), Change("C", lower, HIGHEST + 1))
            changed(Change(old_name, higher, over), Change("upstream", 0, HIGHEST + 1))
        for name in ("g0", "g"):
            changed(Change(name, last, 1))
        if not run.step(run.n, 7, MOST_STEPS, {}):
            raise Difference("a step with its pair is refused")
        run.move(7)
    return trial


def run_of(case: sheets.Case, calls: int) -> Trial:
    def trial(library: Library, rng: random.Random, tally: Tally) -> None:
        Run(library, rng, tally, case.sheet, case.exact).go(calls)
    return trial


def own_river(case: sheets.Case) -> Trial:
    """The sheet's own river, as a controller runs it: U and flows from its rows, its gauges, M steps and one more."""
    def trial(library: Library, rng: random.Random, tally: Tally) -> None:
        run = Run(library, rng, tally, case.sheet, case.exact)
        starts, concentrations = (list(each) for each in zip(*run.found.rows))
        if not run.rows(len(starts), len(starts)):
            raise Difference("the rows of a good river are refused")
        u = run.upstream(starts, concentrations, run.steps, 0)
        run.lend_pair(run.flow(0), run.flow(0))
        run.start(run.n, u, {})
        run.begin(u)
        for j in range(1, run.steps + 2):
            u = run.upstream(starts, concentrations, run.steps, j)
            run.lend_pair(run.flow(j - 1), run.flow(j))
            if run.step(run.n, u, run.steps, {}):
                run.move(u)
            for at in range(len(run.found.gauges)):
                run.report(run.n, run.gauge(at), {})
            searches.search_true(run)
        if run.moves != run.steps:
            raise Difference(f"{run.moves} steps made of {run.steps}")
    return trial


def lookup(library: Library, rng: random.Random, tally: Tally) -> None:
    """U at steps of rows with every kind of fault, and lists of different lengths."""
    caller = Caller(library, rng, tally)
    steps = rng.choice((1, 5, 300, MOST_STEPS, 0, HIGHEST_FIELD, rng.randint(0, HIGHEST_FIELD)))
    rows = sheets.random_rows(rng, min(max(steps, 1), MOST_STEPS), rng.choice((1, 3, 20, MOST_ROWS)))
    starts, concentrations = [list(each) for each in zip(*rows)]
    at = rng.randrange(len(rows))
    fault = rng.randrange(8)
    if fault == 0:
        starts[at] = rng.choice((0, starts[at] + 1, starts[at - 1], HIGHEST_FIELD, max(steps, 1)))
    elif fault == 1:
        concentrations[at] = rng.choice((HIGHEST, HIGHEST + 1, HIGHEST_FIELD))
    elif fault == 2:
        rng.choice((starts, concentrations)).pop()
    elif fault == 3:
        length = rng.choice((0, 1, MOST_ROWS, MOST_ROWS + 1, 2 * MOST_ROWS))
        starts, concentrations = list(range(length)), [9] * length
    some = rng.randint(0, min(steps, HIGHEST_FIELD))
    for j in (0, some, steps, min(steps + 1, HIGHEST_FIELD), HIGHEST_FIELD, *starts[:3]):
        caller.upstream(starts, concentrations, steps, j)


def numbers(library: Library, rng: random.Random, tally: Tally) -> None:
    """The numbers that carry the claims: the distance that figures are held to, after any count of steps; limits."""
    caller = Caller(library, rng, tally)
    for steps in (0, 1, 100, MOST_STEPS, HIGHEST_FIELD, rng.randint(0, HIGHEST_FIELD)):
        caller.reading("most_off", exact.ALLOWED * steps, U32(steps))
    caller.reading("most_rivers", MOST_RIVERS)
    caller.reading("most_blocks", MOST_BLOCKS)
    caller.reading("most_bands", MOST_BANDS)
    caller.reading("most_steps", MOST_STEPS)
    caller.reading("most_horizon", MOST_STEPS)      # from step 0 on a sheet of that many


def cases(rng: random.Random) -> Iterator[sheets.Case]:
    """Sheets of every kind, for single loadings."""
    yield from sheets.bench_cases()
    yield from sheets.extreme_rivers()
    yield from sheets.lateral_rivers(rng, 12)
    yield from rng.sample(list(sheets.cut_sheets(sheets.plain())), 60)
    yield from islice(sheets.lengthened_sheets(rng, sheets.plain()), 20)
    yield from islice(sheets.marked_sheets(rng, sheets.plain()), 40)
    yield from sheets.counted_sheets(sheets.plain())
    yield from rng.sample(list(sheets.end_of_range_sheets(sheets.plain())), 150)
    yield from sheets.disordered_sheets(sheets.plain())
    yield from sheets.faulty_pairs(sheets.plain())
    yield from sheets.many_faults(rng, sheets.plain(), 100)
    yield from sheets.changed_sheets(rng, 150)
    yield from sheets.unsifted_rivers(rng, 150)
    yield from (sheets.Case(f"{length} random bytes", rng.randbytes(length)) for length in range(0, 120, 9))


def cases_of(rng: random.Random, draft: sheets.Draft, draw: sheets.Drawer) -> Iterator[sheets.Case]:
    """What sheets with flow rows and sheets with bands have in common."""
    yield from sheets.disordered_flows(draft)
    yield from rng.sample(list(sheets.cut_sheets(draft)), 90)
    yield from islice(sheets.lengthened_sheets(rng, draft), 20)
    yield from islice(sheets.marked_sheets(rng, draft), 20)
    yield from sheets.counted_sheets(draft)
    yield from rng.sample(list(sheets.end_of_range_sheets(draft)), 150)
    yield from sheets.disordered_sheets(draft)
    yield from sheets.faulty_pairs(draft)
    yield from sheets.many_faults(rng, draft, 100)
    yield from sheets.changed_sheets(rng, 150, draw=draw)
    yield from sheets.unsifted_rivers(rng, 150, draw)
    yield from (sheets.Case(f"{draft.mark.decode()}, {length} random bytes", draft.mark + rng.randbytes(length))
                for length in range(0, 120, 9))


def flow_cases(rng: random.Random) -> Iterator[sheets.Case]:
    """Sheets with flow rows, of every kind, for single loadings."""
    draft = sheets.plain_flows()
    yield from sheets.flow_rivers()
    yield from sheets.flow_fault_cases()
    yield from sheets.other_marks(draft)
    yield from cases_of(rng, draft, FLOWS)
    yield sheets.Case("the longest sheet without bands", sheets.write(sheets.fullest_flows(rng)))


def band_cases(rng: random.Random) -> Iterator[sheets.Case]:
    """Sheets with bands, of every kind, for single loadings."""
    draft = sheets.plain_bands()
    yield from sheets.band_rivers()
    yield from sheets.band_fault_cases()
    yield from sheets.band_flow_cases()
    yield from sheets.band_marks(draft)
    yield from cases_of(rng, draft, BANDS)
    longest = sheets.write(sheets.fullest(rng))
    for name, sheet in (("the longest sheet", longest), ("the longest sheet, cut", longest[:-1]),
                        ("the longest sheet, a byte added", longest + b"\0")):
        yield sheets.Case(name, sheet)


CASE_ANSWERS = {"rows": {ACCEPTED, (13, None)}, **dict.fromkeys(("gauge", "flow", "dt", "dx"), {ACCEPTED})}
SHEET_ANSWERS = {ACCEPTED, *((number, None) for number in (1, 2, 3, 4, 5, 7, 13)), (6, "reach"), (8, "row"),
                 (9, "row"), (10, "segment"), (11, "segment"), (12, "segment")}
RUN_ANSWERS = {
    "load": {ACCEPTED},
    "start": {ACCEPTED, (13, None), (14, "segment"), (14, None)},
    "step": {ACCEPTED, (13, None), (14, "segment"), (14, None), (15, None)},
    "report": {ACCEPTED, (13, None), (14, "segment"), (14, None)},
    "search": {ACCEPTED, ABOVE, (13, None)},
}
OWN_ANSWERS = {"step": {ACCEPTED, (15, None)}, "search": {ACCEPTED, ABOVE},
               **dict.fromkeys(("load", "rows", "gauge", "upstream", "flow", "start", "report"), {ACCEPTED})}
LARGE_ANSWERS = {"load": {ACCEPTED}, "start": {ACCEPTED}, "step": {ACCEPTED}}
FLOWS, BANDS = sheets.draw_flow_river, sheets.draw_band_river

GROUPS = (
    Group("loadings of every kind", lambda rng: map(loading, cases(rng)), {"load": SHEET_ANSWERS, **CASE_ANSWERS}),
    Group("loadings of sheets with flow rows", lambda rng: map(loading, flow_cases(rng)),
          {"load": SHEET_ANSWERS | {(16, "row")}, **CASE_ANSWERS}),
    Group("loadings of sheets with bands", lambda rng: map(loading, band_cases(rng)),
          {"load": SHEET_ANSWERS | {(16, "row"), (19, "reach")}, **CASE_ANSWERS}),
    Group("every flow's set", lambda rng: map(every_set, chain(
        sheets.flow_rivers(), sheets.rivers(rng, 15, 400, FLOWS), sheets.large_rivers(rng, 1, 70, FLOWS),
        sheets.small_rivers(rng, 5))), {"load": {ACCEPTED, (13, None)}, "flow": {ACCEPTED}}),
    Group("every flow's set by its bands", lambda rng: map(every_set, chain(
        sheets.band_rivers(), sheets.rivers(rng, 30, 400, BANDS), sheets.large_rivers(rng, 2, 70, BANDS))),
          {"load": {ACCEPTED, (13, None)}, "flow": {ACCEPTED}}),
    Group("numbers that carry the claims", lambda rng: iter((numbers,)),
          dict.fromkeys(("most_off", "most_rivers", "most_blocks", "most_bands", "most_steps", "most_horizon"),
                        {ACCEPTED})),
    Group("lookups of U", lambda rng: (lookup for _ in range(400)),
          {"upstream": {ACCEPTED, (3, None), (8, "row")}}),
    Group("the sheets' own rivers",
          lambda rng: map(own_river, chain(sheets.small_rivers(rng, 15), sheets.rivers(rng, 15, 400))),
          OWN_ANSWERS, True),
    Group("the sheets' own rivers, with flow rows",
          lambda rng: map(own_river, chain(sheets.flow_rivers(), sheets.small_rivers(rng, 15, FLOWS),
                                           sheets.rivers(rng, 15, 400, FLOWS))), OWN_ANSWERS, True),
    Group("the sheets' own rivers, with bands",
          lambda rng: map(own_river, chain(sheets.band_rivers(), sheets.small_rivers(rng, 15, BANDS),
                                           sheets.rivers(rng, 15, 400, BANDS))), OWN_ANSWERS, True),
    Group("wrong pairs of sets",
          lambda rng: map(wrong_pairs, chain(sheets.small_rivers(rng, 5, FLOWS), sheets.rivers(rng, 3, 400, FLOWS),
                                             sheets.small_rivers(rng, 2, BANDS))),
          {"step": {ACCEPTED, (13, None), (14, "segment")}}, True),
    Group("calls of every kind, in fractions",
          lambda rng: (run_of(each, 40) for each in sheets.small_rivers(rng, 100)), RUN_ANSWERS, True),
    Group("calls of every kind, between bounds",
          lambda rng: (run_of(each, 60) for each in sheets.rivers(rng, 50, 400)), RUN_ANSWERS, True),
    Group("half-step sums at one whole",
          lambda rng: (run_of(each, 40) for each in sheets.tight_rivers(rng, 50) if each.exact),
          RUN_ANSWERS, True),
    Group("figures at the highest", lambda rng: (run_of(each, 40) for each in sheets.highest_rivers(rng, 60)),
          RUN_ANSWERS, True),
    Group("flow rows, in fractions",
          lambda rng: (run_of(each, 40) for each in sheets.small_rivers(rng, 60, FLOWS)), RUN_ANSWERS, True),
    Group("flow rows, between bounds",
          lambda rng: (run_of(each, 60) for each in sheets.rivers(rng, 30, 400, FLOWS)), RUN_ANSWERS, True),
    Group("flow rows, half-step sums at one whole",
          lambda rng: (run_of(each, 40) for each in sheets.tight_rivers(rng, 25, FLOWS) if each.exact),
          RUN_ANSWERS, True),
    Group("flow rows, figures at the highest",
          lambda rng: (run_of(each, 40) for each in sheets.highest_rivers(rng, 30, FLOWS)), RUN_ANSWERS, True),
    Group("bands, in fractions",
          lambda rng: (run_of(each, 40) for each in sheets.small_rivers(rng, 60, BANDS)), RUN_ANSWERS, True),
    Group("bands, between bounds",
          lambda rng: (run_of(each, 60) for each in sheets.rivers(rng, 30, 400, BANDS)), RUN_ANSWERS, True),
    Group("bands, half-step sums at one whole",
          lambda rng: (run_of(each, 40) for each in sheets.tight_rivers(rng, 25, BANDS) if each.exact),
          RUN_ANSWERS, True),
    Group("bands, figures at the highest",
          lambda rng: (run_of(each, 40) for each in sheets.highest_rivers(rng, 30, BANDS)), RUN_ANSWERS, True),
    Group("highest figures and searches", lambda rng: map(searches.every_block, searches.LENGTHS),
          {"start": {ACCEPTED}, "step": {ACCEPTED}, "search": {ACCEPTED, ABOVE}}),
    Group("searches of any lists", lambda rng: map(searches.any_lists, searches.LENGTHS),
          {"search": {ACCEPTED, ABOVE}}),
    Group("highest figures too short", lambda rng: map(searches.short_lists, searches.LENGTHS),
          {"start": {ACCEPTED, (13, None), (14, None)}, "step": {ACCEPTED, (13, None), (15, None)},
           "search": {ACCEPTED, (13, None)}}),
    Group("highest figures at the cut", lambda rng: iter((searches.at_the_cut,)), {"search": {ACCEPTED, ABOVE}}),
    Group("the largest rivers", lambda rng: (run_of(each, 12) for each in chain(
        sheets.large_rivers(rng, 3), sheets.large_rivers(rng, 2, 8, FLOWS), sheets.large_rivers(rng, 2, 8, BANDS))),
          LARGE_ANSWERS, True),
)


# The examples, what a search reads, and the stack


def pulse() -> sheets.Draft:
    """A river with a spill at its top in steps 3 to 12, and three gauges."""
    draft = sheets.plain()
    rows = [Row(0, 1_000), Row(3, 900_000), Row(13, 1_000)]
    return replace(draft, rows=rows).with_header(M=60, interval=1)


def melting() -> sheets.Draft:
    """The same while the flow rises and falls again, past the end of the spill."""
    flows = [(10, 30_000), (15, 45_000), (20, 60_000), (40, 30_000), (60, 8_000)]
    return pulse().with_flows(*flows)


def in_flood() -> sheets.Draft:
    """The same with bands: while the flow is high, the first and the third reach are wider and mix more."""
    low, high = (9_000, 6_000, 1_800), (15_000, 9_000, 4_000)
    table = sheets.parted(40_000, low, high)
    return melting().with_bands(table, [], table[::-1])


def longest() -> bytes:
    """A sheet that is accepted and as long as a sheet can be."""
    sheet = sheets.write(sheets.fullest(random.Random(1)))
    if len(sheet) != model.LONGEST_SHEET or model.answer(sheet) is not None:
        raise RuntimeError("the longest sheet is not accepted")
    return sheet


def example_sheets() -> list[bytes]:
    """Accepted and refused ones; the longest, and that one with a byte more and with many."""
    good, fullest = sheets.write(pulse()), longest()
    return [good, good[:-1], good + b"\0", sheets.write(pulse().with_reach(1, Kd=HIGHEST_KD + 1)),
            sheets.write(pulse().with_reach(2, D=0)), sheets.write(melting()),
            sheets.write(melting().with_flows((0, 1))), sheets.write(in_flood()),
            sheets.write(in_flood().with_table(2, sheets.GAP)), fullest, fullest + b"\0", fullest + bytes(1_000)]


def refused_line(refusal: model.Refusal) -> str:
    place = " {} {}".format(*refusal.place) if refusal.place else ""
    return f"refused {refusal.number}{place}\n"


def gate_moves(sheet: bytes, gauge: int, limit: int, per_step: int = exact.ALLOWED) -> Iterator[str]:
    """For each step of an accepted sheet's river what a gate at that gauge does: a line, or nothing.  The margin is the
    distance that each step allows; with 0 the gate goes by the figures alone."""
    shut, dt = False, model.read_sheet(sheet).header.dt
    for after in model.run(sheet):
        line = ""
        figure = model.figures_at(after.lists, after.state, after.gauges[gauge - 1])[0]
        if (figure + per_step * after.step > limit) != shut:
            shut = not shut
            line = f"{'shut' if shut else 'open'} at step {after.step}, after {after.step * dt} s\n"
        yield line


def gate_lines(sheet: bytes, gauge: int, limit: int, per_step: int = exact.ALLOWED) -> str:
    """What examples/gate.c prints, by the model."""
    try:
        lines = list(gate_moves(sheet, gauge, limit, per_step))
    except model.Refusal as refusal:
        return refused_line(refusal)
    return "".join((*lines, f"done {len(lines)}\n"))


class Stream(NamedTuple):
    """What examples/waterworks.c is given of a stream."""

    sheet: bytes
    gauge: int
    limit: int


def near_limits() -> list[Stream]:
    """A gate that the margin opens a step later, one that it shuts a step earlier, and one in clean water, which it
    shuts once it is above the limit by itself."""
    spill, clean = sheets.write(pulse()), sheets.write(sheets.brook(dt=1, Q=500, U=0, M=60))
    return [Stream(spill, 1, 95_500), Stream(spill, 2, 3_000), Stream(clean, 1, 100)]


@dataclass
class Running:
    """A stream that is open: its place among all, its segments and steps, and what its gate does at each step."""

    which: int
    segments: int
    steps: int
    moves: Iterator[str]
    done: int = 0


def waterworks_lines(streams: list[Stream], per_step: int = exact.ALLOWED, foretold: bool = False) -> str:
    """What examples/waterworks.c prints: each river moves as it does alone, and the pool decides who waits.  With the
    word forecast it says at an opening when the gauge will first be above the limit."""
    lines: list[str] = []
    waiting, running = list(enumerate(streams, 1)), {}
    while waiting or running:
        while waiting and len(running) < MOST_RIVERS:
            which, stream = waiting[0]
            refusal = model.answer(stream.sheet)
            if refusal is not None:
                lines.append(f"stream {which} {refused_line(refusal)}")
            else:
                found = model.read_sheet(stream.sheet)
                segments = model.segment_count(found.reaches)
                if segments + sum(each.segments for each in running.values()) > MOST_SEGMENTS:
                    break
                if 1 <= stream.gauge <= len(found.gauges):
                    number = min(set(range(1, MOST_RIVERS + 1)) - set(running))
                    running[number] = Running(which, segments, found.header.M, gate_moves(*stream, per_step))
                    lines.append(f"stream {which} opened as river {number}\n")
                    if foretold:
                        looked = next(first_above(stream.sheet, stream.gauge, stream.limit, found.header.M))
                        lines.append(f"stream {which} {forecast_line(found.header.dt, *looked)}")
                else:
                    lines.append(f"stream {which} has no such gauge\n")
            waiting.pop(0)
        for number, stream in sorted(running.items()):
            lines += [f"stream {stream.which} {line}" for line in (next(stream.moves),) if line]
            stream.done += 1
            if stream.done == stream.steps:
                lines.append(f"stream {stream.which} done {stream.done}\n")
                del running[number]
    return "".join(lines)


def copied(state: model.State) -> model.State:
    return replace(state, C=list(state.C), Z=list(state.Z), W=list(state.W))


def ahead_lines(sheet: bytes, gauge: int, limit: int, most: int) -> str:
    """What examples/ahead.c prints, by the model: a copy of the state runs on, U as it is, through the flow rows."""
    try:
        found, rivers = model.rivers_on(sheet)
    except model.Refusal as refusal:
        return refused_line(refusal)
    n, at = len(rivers[0]), found.gauges[gauge - 1] - 1
    sets = [model.Lists(n) for _ in rivers]
    for lists, river in zip(sets, rivers):
        lists.fill(river)
    highest = [0] * model.block_count(n)
    lines = []
    for state in states(sheet):
        if state.count % found.header.interval:
            continue
        copy = copied(state)
        while copy.C[at] <= limit and copy.count - state.count < most and copy.count < MOST_STEPS:
            pair = (sets[model.flow_in_force(sheet, copy.count + more)] for more in (0, 1))
            model.step(*pair, n, copy, highest, [0] * n, [0] * n, copy.U, MOST_STEPS)
        taken = copy.count - state.count
        if copy.C[at] > limit:
            lines.append(f"step {state.count}: above in {taken} steps, {taken * found.header.dt} s\n")
        else:
            lines.append(f"step {state.count}: not above in {taken} steps\n")
    return "".join((*lines, f"done {found.header.M}\n"))


def first_above(sheet: bytes, gauge: int, limit: int, most: int) -> Iterator[tuple[int, Optional[int], int]]:
    """Each step of the sheet's own river, the first from there on at which the gauge is above, and the last looked at.

    By the figures of the run, and not by forecasts.
    """
    found = model.read_sheet(sheet)
    shown = [state.C[found.gauges[gauge - 1] - 1] for state in states(sheet)]
    for count in range(len(shown)):
        last = min(count + most, found.header.M)
        yield count, next((step for step in range(count, last + 1) if shown[step] > limit), None), last


def forecast_line(dt: int, count: int, first: Optional[int], last: int) -> str:
    if first is None:
        return f"not above up to step {last}\n"
    return f"first above at step {first}, that is after {(first - count) * dt} seconds\n"


def forecast_lines(sheet: bytes, gauge: int, limit: int, most: int) -> str:
    """What examples/forecast.c prints, by the model: the sheet's own river is looked through, up to M."""
    refusal = model.answer(sheet)
    if refusal is not None:
        return refused_line(refusal)
    header = model.read_sheet(sheet).header
    lines = [f"step {count}: {forecast_line(header.dt, count, first, last)}"
             for count, first, last in first_above(sheet, gauge, limit, most) if count % header.interval == 0]
    return "".join((*lines, f"done {header.M}\n"))


def key_lines(sheet: bytes, limit: int) -> list[set[str]]:
    """What examples/key.c may print, line by line: which of the segments above it names is left open."""
    refusal = model.answer(sheet)
    if refusal is not None:
        return [{refused_line(refusal)}]
    lines, header = [], model.read_sheet(sheet).header
    for state in states(sheet):
        if state.count % header.interval == 0:
            above = {f"above at segment {at}" for at, figure in enumerate(state.C, 1) if figure > limit}
            lines.append({f"step {state.count}: {word}\n" for word in above or {"none above"}})
    return [*lines, {f"done {header.M}\n"}]


class Example:
    """One of examples/*.c, built as C99 with no warning, and what is to be said of it."""

    def __init__(self, name: str, archive: str, folder: Path) -> None:
        self.name = name
        self.sheet = folder / "sheet"
        self.path = compiled(folder / name, "-std=c99", *STRICT, INCLUDE,
                             str(ROOT / "examples" / f"{name}.c"), archive)
        self.runs = self.faults = 0

    def run(self, sheet: bytes, *words: object, piped: bool = False) -> str:
        """What it prints for a sheet, from a file or from a pipe."""
        self.sheet.write_bytes(sheet)
        return self.printed("-" if piped else self.sheet, *words, given=sheet if piped else b"")

    def printed(self, *words: object, given: bytes = b"") -> str:
        self.runs += 1
        return subprocess.run([self.path, *map(str, words)], input=given, capture_output=True,
                              timeout=60).stdout.decode()

    def hold(self, holds: bool, what: str) -> None:
        if not holds:
            self.faults += 1
            if self.faults <= MOST_SHOWN:
                say(f"  {self.name}: {what}")

    def compare(self, found: str, wanted: str, what: str) -> None:
        self.hold(found == wanted, f"{what}: {found[-200:]!r}, not {wanted[-200:]!r}")

    def close(self, total: Tally) -> None:
        total.differences += self.faults
        say(f"examples/{self.name}.c: {self.runs} runs, {self.faults} differences")


def run_gate(archive: str, folder: Path, total: Tally) -> None:
    """It prints what the model says, from a file and from a pipe."""
    gate = Example("gate", archive, folder)
    seen = set()
    for sheet, gauge, limit in chain(product(example_sheets()[:-3], (1, 2, 3), (2_000, 100_000, 880_000, HIGHEST)),
                                     product(example_sheets()[-3:], (1, 3), (HIGHEST // 2,)), near_limits()):
        wanted = gate_lines(sheet, gauge, limit)
        for piped in (False, True):
            gate.compare(gate.run(sheet, gauge, limit, piped=piped), wanted, f"gauge {gauge}, limit {limit}")
        seen |= {word for word in ("shut", "open", "refused 4\n", "refused 6 reach 2\n", "refused 16 row 1\n",
                                   "refused 19 reach 3\n") if word in wanted}
    for gauge in (0, 4):
        gate.compare(gate.run(sheets.write(pulse()), gauge, 1), "", f"gauge {gauge}, which there is not")
    moves = [gate_lines(sheets.write(draft), 1, 100_000) for draft in (pulse(), melting(), in_flood())]
    gate.hold(len(set(moves)) == 3, "flow rows or bands do not show")
    for near in near_limits():
        gate.hold(gate_lines(*near) != gate_lines(*near, per_step=0), f"the margin does not show at limit {near.limit}")
    gate.hold(len(seen) == 6, f"shows too little: {seen}")
    gate.close(total)


def run_ahead(archive: str, folder: Path, total: Tally) -> None:
    """It prints what the model says: the copy runs on, past the sheet's M too and up to 100,000; the river stays."""
    ahead = Example("ahead", archive, folder)
    seen = set()
    tried = [*product(example_sheets()[:-3], (1, 3), (2_000, 100_000), (20,)),
             *product(example_sheets()[-3:], (2,), (HIGHEST // 2,), (0, 3)),
             (sheets.write(sheets.brook(dt=1, Q=500, U=7, M=1)), 1, HIGHEST, 2 * MOST_STEPS)]
    for sheet, gauge, limit, most in tried:
        wanted = ahead_lines(sheet, gauge, limit, most)
        ahead.compare(ahead.run(sheet, gauge, limit, most), wanted, f"gauge {gauge}, limit {limit}, {most} steps")
        seen |= {word for word in (": above", ": not above", f"not above in {MOST_STEPS - 1} steps", "refused 4\n")
                 if word in wanted}
    ahead.hold(len(seen) == 4, f"shows too little: {seen}")
    ahead.close(total)


def run_forecast(archive: str, folder: Path, total: Tally) -> None:
    """It prints what the sheet's own river will show, to the horizon's end and no further than M; the river stays."""
    forecast = Example("forecast", archive, folder)
    seen = set()
    tried = [*product(example_sheets()[:-3], (1, 3), (2_000, 100_000, 880_000), (20,)),
             *product(example_sheets()[-3:], (2,), (HIGHEST // 2,), (0, 3)),
             *((sheets.write(draft), 2, limit, most) for draft in (pulse(), melting(), in_flood())
               for limit, most in ((0, 60), (7_000, 5), (7_000, 0), (7_000, 2 ** 40), (10 ** 10, 3)))]
    for sheet, gauge, limit, most in tried:
        wanted = forecast_lines(sheet, gauge, limit, most)
        forecast.compare(forecast.run(sheet, gauge, limit, most), wanted,
                         f"gauge {gauge}, limit {limit}, {most} steps")
        seen |= {word for word in (" that is after 0 seconds\n", " that is after 10 seconds\n",
                                   " that is after 200 seconds\n", "step 50: not above up to step 60\n",
                                   "step 60: not above up to step 60\n", "step 0: not above up to step 0\n",
                                   "refused 4\n") if word in wanted}
    for gauge in (0, 4):
        forecast.compare(forecast.run(sheets.write(pulse()), gauge, 1, 1), "", f"gauge {gauge}, which there is not")
    page = (ROOT / "docs" / "C.md").read_text()
    shown = re.search(r"# \./forecast (\S+) (\d+) (\d+) (\d+)\n\n((?:    step .*\n)+)", page)
    printed = forecast.printed(ROOT / shown[1], *shown.groups()[1:4])
    forecast.hold(textwrap.dedent(shown[5]) in printed, f"docs/C.md shows {shown[5]!r}")
    forecast.hold(len(seen) == 7, f"shows too little: {seen}")
    forecast.close(total)


def run_key(archive: str, folder: Path, total: Tally) -> None:
    """It says none exactly where no segment is above, and otherwise names one that is; a refusal as the others do."""
    key = Example("key", archive, folder)
    seen = set()
    for sheet, limit in chain(product(example_sheets()[:-3], (0, 2_000, 100_000, 899_999, HIGHEST, 10 ** 10)),
                              product(example_sheets()[-3:], (HIGHEST // 2,))):
        found, wanted = key.run(sheet, limit).splitlines(keepends=True), key_lines(sheet, limit)
        faults = [f"{line!r}, not one of {sorted(may)[:5]}" for line, may in zip(found, wanted) if line not in may]
        key.hold(not faults and len(found) == len(wanted), f"limit {limit}, {len(found)} lines: {faults[:1]}")
        seen |= {word for word in (": none above", ": above at", "refused 4\n") if word in "".join(found)}
    key.hold(len(seen) == 3, f"shows too little: {seen}")
    key.close(total)


def run_reset(archive: str, folder: Path, total: Tally) -> None:
    """Power fails at every word that is written: the listing goes on from the last state that was whole."""
    reset = Example("reset", archive, folder)
    memory = folder / "memory"

    def listed(sheet: bytes, *words: int, keep: bool = False) -> str:
        if not keep:
            memory.unlink(missing_ok=True)
        return reset.run(sheet, memory, *words)

    for sheet in example_sheets():
        refusal = model.answer(sheet)
        wanted = refused_line(refusal) if refusal else model.listing(sheet).decode()
        reset.compare(listed(sheet), wanted, "without a failure")

    draft = sheets.plain_flows().with_header(interval=1)
    sheet, words = sheets.write(draft), 3 + 3 * draft.segments + model.block_count(draft.segments) + 1
    whole = model.listing(sheet).decode()
    lines, gauges, writes = whole.splitlines(keepends=True), len(draft.gauges), words * (draft.header.M + 1)

    def hold_rest(kept: int, what: str) -> None:
        """After so many words the listing goes on at the step that was whole last."""
        made = kept // words - 1            # the step whose state is whole; none before the start's
        rest = "".join(lines if made < 0 else lines[1 + gauges * max(made - 1, 0):])
        reset.compare(listed(sheet, keep=True), rest, what)

    for cut in range(writes + 1):
        found = listed(sheet, cut)
        shown = lines[:1 + gauges * (cut // words - 1)] if cut >= words else []
        reset.compare(found, "".join(shown) if cut < writes else whole, f"power fails after {cut} words")
        hold_rest(cut, f"power failed after {cut} words")
    for cut, again in product(range(words, writes, 17), range(0, 2 * words, 7)):
        listed(sheet, cut)
        left = writes - cut // words * words
        listed(sheet, min(again, left), keep=True)
        hold_rest(cut // words * words + min(again, left), f"power failed after {cut} words and then {again}")

    # a copy that was damaged or is another river's does not stand
    listed(sheet)
    image, newer = memory.read_bytes(), draft.header.M + 1
    for at in range(words):
        damaged = bytearray(image)
        damaged[newer % 2 * (len(image) // 2) + model.FIELD * at] ^= 1
        memory.write_bytes(damaged)
        hold_rest((newer - 1) * words, f"word {at} of the newer copy damaged")
    memory.write_bytes(image)
    other = sheets.write(draft.with_reach(0, CL=501))
    reset.compare(listed(other, keep=True), model.listing(other).decode(), "the memory of another river")
    reset.close(total)


def lengthened(segments: int, M: int, U: int) -> bytes:
    """The river with a spill, of so many segments and steps."""
    draft = pulse().with_reach(2, segments=segments - 6).with_header(M=M)
    return sheets.write(replace(draft, rows=[Row(0, 1_000), Row(3, U), Row(13, 1_000)]))


def run_waterworks(archive: str, folder: Path, total: Tally) -> None:
    """Each stream's gate moves as alone, whoever is opened, closed or refused beside it; who has no room waits."""
    waterworks = Example("waterworks", archive, folder)
    small, flowing, bad = (sheets.write(draft) for draft in (pulse(), melting(), pulse().with_reach(1, A=0)))
    long = [lengthened(segments, M, 100_000 * at)
            for at, (segments, M) in enumerate(((500, 20), (400, 13), (124, 31), (1_000, 15), (24, 60)), 1)]
    cases = [
        [Stream(small, 1, 100_000)],
        [Stream(small, 1, 100_000), Stream(flowing, 2, 100_000), Stream(small, 3, 2_000)],
        [Stream(sheet, 1 + at % 3, 20_000 * at) for at, sheet in enumerate((small, flowing, bad) * 5, 1)],
        [Stream(sheet, 1, 50_000) for sheet in (*long, flowing)],
        [Stream(sheet, 1, 50_000) for sheet in (bad, *reversed(long), small[:-1], small, longest())],
        [Stream(long[3], 1, 50_000)] * 3,       # the same river again, under the same number
        # gauges that there are not: of the first, of one beside others, of one that waits and of the last
        [Stream(small, 0, 1), Stream(long[0], 1, 50_000), Stream(flowing, 4, 1), Stream(long[3], 4, 1),
         Stream(long[3], 1, 50_000), Stream(small, 3, 2_000), Stream(flowing, 9, 1)],
        [Stream(small, 4, 1)],
        near_limits(),
    ]
    shown, foretold = [], []
    for at, streams in enumerate(cases):
        words = []
        for which, stream in enumerate(streams):
            file = folder / f"stream{which}"
            file.write_bytes(stream.sheet)
            words += [file, stream.gauge, stream.limit]
        shown.append(waterworks.printed(*words))
        waterworks.compare(shown[-1], waterworks_lines(streams), f"case {at}")
        foretold.append(waterworks.printed("forecast", *words))
        waterworks.compare(foretold[-1], waterworks_lines(streams, foretold=True), f"case {at}, with forecasts")
    for word in ("shut", "open at", "refused 6 reach 2", "refused 2\n", "stream 11 opened", "6 opened as river 1\n",
                 "stream 1 done 15\nstream 2 opened as river 1\nstream 2 shut",
                 "stream 1 has no such gauge\nstream 2 opened as river 1\n",
                 "stream 4 has no such gauge\nstream 5 opened as river 1\n", "stream 7 has no such gauge\n"):
        waterworks.hold(word in "".join(shown), f"no case shows {word!r}")
    for word in ("stream 1 done 15\nstream 2 opened as river 1\n"
                 "stream 2 first above at step 5, that is after 50 seconds\nstream 2 shut",
                 "stream 2 not above up to step 60\n"):
        waterworks.hold(word in "".join(foretold), f"no case with forecasts shows {word!r}")
    again = [[line[len("stream 1"):] for line in shown[5].splitlines() if line.startswith(f"stream {which} ")]
             for which in (1, 2, 3)]
    waterworks.hold(again[0] == again[1] == again[2], "a river that is opened again does not move as before")
    waterworks.hold(shown[-1] != waterworks_lines(near_limits(), per_step=0), "the margin does not show")
    waterworks.compare(waterworks.printed(folder / "stream0", 1), "", "words are missing")
    waterworks.compare(waterworks.printed("forecast", folder / "stream0", 1), "", "words are missing with forecasts")
    waterworks.compare(waterworks.printed("forecasts", *words), "", "another word in front")
    waterworks.close(total)


def run_reads(archive: str, folder: Path, total: Tally) -> None:
    """A search that has one block to enter reads no segment of another, and none where it has no block to enter."""
    found = reads.measured(archive, folder, searches.LENGTHS)
    faults = found.wrong + (found.searches != reads.wanted(searches.LENGTHS))
    for line in found.said[:MOST_SHOWN]:
        say(f"  {line}")
    total.differences += faults
    say(f"reads: {found.searches} searches with one block to enter or none, {faults} differences")


def run_stack(archive: str, folder: Path, total: Tally) -> None:
    """The stack that each call takes, on a painted stack; the header's figure is at least that."""
    found = stack.measured(archive, folder)
    stated = found.pop("stated", 0)
    faults = int(set(found) != {*CALLS, *READINGS}) + sum(used > stated for used in found.values())
    total.differences += faults
    say(f"stack: {', '.join(f'{name} {used}' for name, used in sorted(found.items()))} bytes, {stated} stated, "
        f"{faults} differences")


def run_names(archive: str, total: Tally) -> None:
    """What the archive needs from outside is what docs/C.md says that it needs."""
    listed = subprocess.run(["nm", "--undefined-only", archive], capture_output=True, text=True, check=True).stdout
    found = {line.split()[-1] for line in listed.splitlines() if " U " in line}
    total.differences += found != NEEDED
    say(f"names from outside: {', '.join(sorted(found))}, {int(found != NEEDED)} differences")


def examples(archive: str, folder: Path, total: Tally) -> None:
    run_names(archive, total)
    run_gate(archive, folder, total)
    run_ahead(archive, folder, total)
    run_forecast(archive, folder, total)
    run_key(archive, folder, total)
    run_reset(archive, folder, total)
    run_waterworks(archive, folder, total)
    run_reads(archive, folder, total)
    run_stack(archive, folder, total)


if __name__ == "__main__":
    sys.exit(groups.main("Tests the library for C over its boundary.", GROUPS, examples))
