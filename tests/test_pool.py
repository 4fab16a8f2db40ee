"""Tests several rivers on shared lists over the library's boundary, call by call.

    python3 tests/test_pool.py PATH_TO_ARCHIVE [--seed N] [--long [--minutes N]]

Openings, starts, steps, reports, searches and closings, accepted and refused, are put to the library and to the model,
whose rivers are kept apart.  After each call every byte that was lent is compared: the table, the shared lists, the
river's own lists, the highest figures of every river, and the guard words around them.  Each open river is held to the
same river alone, by the calls on lists of its own, and to its exact river: at most 6 x n, sediment 6 x n x Kd.
The exit status is 0 only when every group ran, showed every answer that it must and agreed.
"""
from __future__ import annotations

import random
import sys
from collections.abc import Iterator
from functools import lru_cache
from itertools import combinations, islice, permutations, product
from pathlib import Path
from typing import NamedTuple, Optional

import groups
import model
import sheets
from calls import ABOVE, ACCEPTED, Difference, Run, Shelf, Tally, draw_word, hold_search
from groups import Group, Trial
from library import FIGURES, OLD, WORKING, Library
from model import (COLUMNS, HIGHEST, HIGHEST_KD, MOST_SEGMENTS, MOST_STEPS, NONE_ABOVE, ONE_WHOLE, Segment, Slot, Table,
                   block_count)
from pools import NUMBERS, OUTSIDE, PoolCalls, PoolRun, Shared, Told, replaced
from searches import ABOVE_THE_CUT, LENGTHS, limits, untrue
from sheets import HIGHEST_FIELD

CLOSED = Slot(0, 7, HIGHEST_FIELD, HIGHEST_FIELD, 9)    # of no matter: no river is open under its number


# Rivers and tables


@lru_cache(64)
def river_of(segments: int, flow_row: bool = False) -> sheets.Draft:
    """A river of so many segments, whose start figures change on the way."""
    reach = sheets.plain().reaches[0]
    lengths = [segments] if segments < 3 else [segments // 3, segments - segments // 3]
    reaches = [reach._replace(segments=length, start=1_000 + 17 * segments + at, CB=70 + at)
               for at, length in enumerate(lengths)]
    draft = sheets.Draft(sheets.plain().header, reaches, sheets.plain().rows, [1])
    return draft.with_flows((2, 25_000)) if flow_row else draft


@lru_cache(64)
def sheet_of(segments: int, flow_row: bool = False) -> bytes:
    return sheets.write(river_of(segments, flow_row))


@lru_cache(64)
def segments_of(sheet: bytes) -> list[list[Segment]]:
    """The river with each flow's set."""
    return model.rivers_on(sheet)[1]


def table_of(*stretches: Optional[tuple[int, int]], opened: int = 1) -> Table:
    """The numbers from 1 on with these stretches, first segment and count; no river is open under the others."""
    slots = [CLOSED if each is None else Slot(opened, *each, 5, 3) for each in stretches]
    return slots + [CLOSED] * (len(NUMBERS) - len(slots))


SOME = tuple(map(sheets.concentration, [random.Random(1)] * 200))


def figures(rng: random.Random) -> Shared:
    """Shared lists that pass 14."""
    return {name: rng.choices(SOME, k=MOST_SEGMENTS + rng.randrange(3)) for name in FIGURES}


def pool_with(library: Library, rng: random.Random, tally: Tally, table: Table, shared: Optional[Shared] = None
              ) -> PoolCalls:
    """A pool with any table; the shared lists pass 14 unless they are given."""
    return PoolCalls(library, rng, tally, table, shared or figures(rng))


def lend(pool: PoolCalls, segments: int) -> Shelf:
    """The lists of a river of so many segments."""
    rivers = segments_of(sheet_of(min(max(segments, 1), MOST_SEGMENTS), True))
    return pool.lend_river(rivers[0], rivers[1])


def must(pool: PoolCalls, wanted: int, what: str) -> None:
    """The answer is the one that the making of the case decides; library and model were compared before."""
    if pool.answer() != wanted:
        raise Difference(f"{what}: answer {pool.answer()}, not {wanted}")


def first_of(order: tuple[int, ...], faults: set[int]) -> int:
    return next((number for number in order if number in faults), 0)


# The order of tests: each fault in every form, alone and beside others


class Opening(NamedTuple):
    """What an opening is handed, and the tests that it breaks."""

    faults: set[int]
    sheet: bytes
    number: int
    table: Table
    row: int
    lengths: list[int]
    records: int
    told: Told
    u: int


ORDER_OF_OPENING = (*sheets.ORDER, 17, 18, 13, 14)
DRAFT = sheets.plain_bands()        # 9 segments in 3 reaches, 3 flow rows
N, REACHES, ROWS = DRAFT.segments, len(DRAFT.reaches), len(DRAFT.flow_rows)
FREE = 6                            # a number under which no river is open in the tables below


def bad_numbers() -> list[Optional[int]]:
    """17 by the number: nothing stands for one that is free, 2 is open."""
    return [None, *OUTSIDE, 2]


def tables_for(full: bool) -> list[tuple[bool, Table]]:
    """Whether it breaks 18, and the table; with a full one 9 segments are one too many, with the other they fit."""
    rest = MOST_SEGMENTS - N + full - 500
    return [(False, table_of((0, 300), (304, 200), None, (505, rest))),
            (True, table_of((0, 300), (299, 200), None, (505, rest))),
            (True, table_of((0, 300), (304, 200), None, (MOST_SEGMENTS - rest + 1, rest)))]


def short_lists() -> list[dict]:
    """13 in every form; nothing is short in the first."""
    long = dict(row=ROWS, lengths=[N] * len(COLUMNS), records=REACHES, told={})
    found = [long, {**long, "row": ROWS + 1}, {**long, "row": HIGHEST_FIELD}, {**long, "records": REACHES - 1}]
    for at in range(len(COLUMNS)):
        found.append({**long, "lengths": [N - (at == each) for each in range(len(COLUMNS))]})
    found += [{**long, "told": {name: length}} for name in FIGURES for length in (MOST_SEGMENTS - 1, N, 0)]
    return [*found, {**long, "told": {"highest": block_count(N) - 1}}]


def openings(rng: random.Random) -> Iterator[Opening]:
    """Every combination on a good sheet; of each fault of a sheet those with every form of 17."""
    good = sheets.write(DRAFT)
    forms = product(bad_numbers(), (False, True), (0, 1, 2), short_lists(), (HIGHEST, HIGHEST + 1))

    def opening(sheet: bytes, number: Optional[int], full: bool, table: int, lists: dict, u: int) -> Opening:
        bad, slots = tables_for(full)[table]
        faults = {17} if number is not None or full else set()
        faults |= ({18} if bad else set()) | ({13} if lists != short_lists()[0] else set())
        faults |= {14} if u > HIGHEST else set()
        return Opening(faults, sheet, FREE if number is None else number, slots, u=u, **lists)

    yield from (opening(good, *form) for form in forms)
    for broken in sheets.tests_of(DRAFT):
        sheet = sheets.with_faults(DRAFT, [broken], {}, {})
        for number, full, table in product(bad_numbers(), (False, True), (0, 1)):
            found = opening(sheet, number, full, table, rng.choice(short_lists()), rng.choice((5, HIGHEST + 1)))
            yield found._replace(faults=found.faults | {broken})


def order_of_opening(case: Opening) -> Trial:
    def trial(library: Library, rng: random.Random, tally: Tally) -> None:
        pool = pool_with(library, rng, tally, case.table)
        pool.open(case.number, case.sheet, case.u, case.row, case.lengths, case.records, case.told)
        must(pool, first_of(ORDER_OF_OPENING, case.faults), f"an opening with the faults {case.faults}")
    return trial


OPEN = 3                            # the number of the river that is called below
BESIDE = (20, 6)                    # its stretch


def tables_to_call() -> list[tuple[bool, int, Table]]:
    """Whether it breaks 18, the number named and the table."""
    stretches = [(0, 5), (100, 900), BESIDE, (26, 60), None, (1_000, 24)]
    good = table_of(*stretches)
    found = [(False, OPEN, good), (False, OPEN, replaced(good, OPEN, opened=HIGHEST_FIELD)),
             *((True, number, good) for number in (*OUTSIDE, 5, 8)),
             (True, OPEN, replaced(good, OPEN, opened=0))]
    for at, stretch in ((1, (0, 21)), (4, (25, 60)), (6, (1_001, 24)), (6, (999, 24)), (8, (30, 1)), (8, (0, 1_024)),
                        (8, (1_025, 0)), (8, (HIGHEST_FIELD, 1)), (8, (1, HIGHEST_FIELD))):
        found.append((True, OPEN, replaced(good, at, opened=1, first=stretch[0], segments=stretch[1])))
    found.append((True, OPEN, replaced(good, OPEN, first=MOST_SEGMENTS - BESIDE[1] + 1)))
    for at, stretch in ((1, (0, 20)), (4, (26, 74)), (8, (22, 0)), (8, (1_024, 0)), (8, (86, 14)), (5, (5, 15))):
        found.append((False, OPEN, replaced(good, at, opened=2 ** 31, first=stretch[0], segments=stretch[1])))
    return found


def shared_short() -> list[Told]:
    return [{name: length} for name in FIGURES for length in (MOST_SEGMENTS - 1, 26)]


class Fault(NamedTuple):
    """A figure put where 14 finds it."""

    name: str                       # a list of the river, of the pool, a field of its slot, or "u"
    at: int
    figure: int


FAULTS = (Fault("u", 0, HIGHEST + 1), Fault("e", 5, ONE_WHOLE + 1), Fault("Kd", 0, HIGHEST_KD + 1),
          Fault("start", 2, HIGHEST + 1), Fault("g", 5, 1))
STATE_FAULTS = (*(Fault(name, at, HIGHEST + 1) for name in FIGURES for at in (0, 5)),
                Fault("upstream", 0, HIGHEST + 1), Fault("steps", 0, MOST_STEPS + 1))
BESIDE_FAULTS = (Fault("C", -1, HIGHEST_FIELD), Fault("Z", 6, HIGHEST_FIELD), Fault("W", 7, HIGHEST_FIELD))
SKIPPED = Fault("highest", 0, HIGHEST_FIELD)        # at which 14 does not look


def put_fault(pool: PoolCalls, shelf: Shelf, fault: Fault) -> None:
    if fault.name in FIGURES:
        content = list(pool.shelf.content[fault.name])
        content[BESIDE[0] + fault.at] = fault.figure
        pool.put_pool(pool.table, {fault.name: content})
    elif fault.name == "highest":
        content = pool.highest(OPEN, {})
        content[fault.at] = fault.figure
        pool.shelf.put(pool.highest_name(OPEN), content)
    elif fault.name in Slot._fields:
        pool.put_pool(replaced(pool.table, OPEN, **{fault.name: fault.figure}))
    elif fault.name in shelf.content:
        content = list(shelf.content[fault.name])
        content[fault.at] = fault.figure
        shelf.put(fault.name, content)


def order_of_calls(name: str) -> Trial:
    """Every combination of a table, a short list and a figure at fault.

    A step's M, a report's segment and a search's limit are drawn.
    """
    names = {"start": COLUMNS, "step": (*OLD, *COLUMNS, *WORKING), "report": COLUMNS, "search": ()}[name]
    short = [{}, *(told for told in shared_short() if name != "search" or "C" in told),
             *({each: BESIDE[1] - 1} for each in names)]
    if name != "report":            # which is not lent them
        short.append({"highest": block_count(BESIDE[1]) - 1})
    # 14 as each call looks for it: a start not at what it overwrites, a report at no U' of its own, a search not at all
    old_side = (Fault(f"{each}0", 1, ONE_WHOLE + 1) for each in "ebh")
    found = {"start": FAULTS, "step": (*FAULTS, *STATE_FAULTS, *old_side),
             "report": (*(each for each in FAULTS if each.name != "u"), *STATE_FAULTS), "search": ()}[name]
    ignored = (None, *BESIDE_FAULTS, SKIPPED, *(STATE_FAULTS if name in ("start", "search") else ()))

    def trial(library: Library, rng: random.Random, tally: Tally) -> None:
        shared = figures(rng)
        good = lend(pool_with(library, rng, tally, table_of(), shared), BESIDE[1])
        for (bad, number, table), told, fault in product(tables_to_call(), short, (*found, *ignored)):
            pool, shelf = pool_with(library, rng, tally, table, shared), good
            if fault is not None:
                shelf = lend(pool, BESIDE[1]) if fault.name in good.content else good
                put_fault(pool, shelf, fault)
            faults = ({18} if bad else set()) | ({13} if told else set()) | ({14} if fault in found else set())
            u = fault.figure if fault is not None and fault.name == "u" else 9
            what = f"{name} with number {number}, {told}, {fault}"
            if name == "start":
                pool.start(number, u, shelf, told)
            elif name == "report":
                segment = rng.choice((1, BESIDE[1], 0, BESIDE[1] + 1, HIGHEST_FIELD))
                faults |= set() if 1 <= segment <= BESIDE[1] else {13}
                pool.report(number, segment, shelf, told)
            elif name == "search":
                pool.search(number, rng.choice((0, u, HIGHEST, HIGHEST_FIELD)), told)
            else:
                steps = rng.choice((3, 4, 0, MOST_STEPS))
                faults |= {15} if steps <= 3 else set()
                pool.step(number, u, steps, shelf, told)
            must(pool, first_of((18, 13, 14, 15), faults), what)
    return trial


def no_segment(library: Library, rng: random.Random, tally: Tally) -> None:
    """An open river with no segment is no fault of the table, and is refused 13 in every call; it can be closed."""
    for first in (0, 22, MOST_SEGMENTS):
        pool = pool_with(library, rng, tally, table_of((20, 6), (first, 0)))
        shelf = lend(pool, 1)
        for call, wanted in ((lambda: pool.start(2, 1, shelf), 13), (lambda: pool.step(2, 1, 9, shelf), 13),
                             (lambda: pool.report(2, 1, shelf), 13), (lambda: pool.start(2, HIGHEST + 1, shelf), 13),
                             (lambda: pool.search(2, 0), 13), (lambda: pool.search(2, 0, {"highest": 0}), 13),
                             (lambda: pool.start(1, 1, lend(pool, 6)), 0),
                             (lambda: pool.open(3, sheet_of(4), 1), 0), (lambda: pool.close(2), 0),
                             (lambda: pool.start(2, 1, shelf), 18), (lambda: pool.search(2, 0), 18)):
            call()
            must(pool, wanted, f"a river of no segment at {first}")


# Tables of any content


def flag(at: int) -> int:
    """Anything but 0 is open."""
    return (1, 2, 255, 256, 65_536, 2 ** 31, HIGHEST_FIELD)[at % 7]


def named_tables() -> Iterator[tuple[str, bool, Table]]:
    """What it is, whether it breaks 18, and the table."""
    yield "none open", False, table_of()
    yield "none open, the rest of any content", False, [Slot(0, *[HIGHEST_FIELD] * 4)] * len(NUMBERS)
    eighth = MOST_SEGMENTS // len(NUMBERS)
    packed = table_of(*((eighth * at, eighth) for at in range(len(NUMBERS))))
    yield "all open, exactly 1,024", False, packed
    yield "all open, in another order", False, packed[::-1]
    yield "all open, of no segment", False, table_of(*[(9, 0)] * len(NUMBERS))
    yield "one open with all", False, table_of(None, None, (0, MOST_SEGMENTS))
    yield "one open with one too many", True, table_of(None, None, (0, MOST_SEGMENTS + 1))
    yield "one open, past the end by one", True, table_of(None, (1, MOST_SEGMENTS))
    yield "one open, the last segment", False, table_of(None, (MOST_SEGMENTS - 1, 1))
    yield "one open, behind the last segment", True, table_of(None, (MOST_SEGMENTS, 1))
    yield "no segment at the end", False, table_of((MOST_SEGMENTS, 0), (MOST_SEGMENTS, 0))
    yield "no segment behind the end", True, table_of((MOST_SEGMENTS + 1, 0))
    yield "no segment within another", False, table_of((10, 20), (15, 0), (15, 0), (0, 10))
    for first, segments in ((HIGHEST_FIELD, 1), (1, HIGHEST_FIELD), (HIGHEST_FIELD, HIGHEST_FIELD), (HIGHEST_FIELD, 0),
                            (2 ** 31, 2 ** 31), (0, HIGHEST_FIELD), (HIGHEST_FIELD - 5, 8), (8, HIGHEST_FIELD - 5)):
        yield f"from {first} on {segments}", True, table_of((first, segments))
        yield f"from {first} on {segments} beside others", True, table_of((0, 9), (20, 30), (first, segments))
        yield f"from {first} on {segments}, closed", False, replaced(table_of((first, segments)), 1, opened=0)
    yield "segments whose sum passes 2^32", True, table_of((0, 2 ** 31), (0, 2 ** 31), (0, 4))
    yield "segments whose sum is 2^32", True, table_of((0, 2 ** 31), (2 ** 31, 2 ** 31))
    yield "eight times the highest", True, table_of(*[(HIGHEST_FIELD, HIGHEST_FIELD)] * len(NUMBERS))
    for one, other in permutations(NUMBERS, 2):
        for gap, bad in ((-1, True), (0, False), (1, False)):
            third = next(number for number in NUMBERS if number not in (one, other))
            table = replaced(table_of(), third, opened=1, first=200, segments=800)
            table = replaced(table, one, opened=1, first=100, segments=50)
            table = replaced(table, other, opened=flag(one + other), first=150 + gap, segments=7)
            yield f"{other} behind {one} by {gap}", bad, table
    for one, other in combinations(NUMBERS, 2):
        third = next(number for number in NUMBERS if number not in (one, other))
        same = table_of(*((300, 8) if number in (one, other) else None for number in NUMBERS))
        same = replaced(same, third, opened=1, first=320, segments=700)
        yield f"{one} and {other} on the same stretch", True, same
        yield f"{one} on the stretch of {other}, which is closed", False, replaced(same, other, opened=0)
        inner = replaced(same, other, first=303, segments=1)
        yield f"{other} within {one}", True, inner
    for number in NUMBERS:
        for past in (0, 1):
            stretches = [(40 * at, 40) for at in range(len(NUMBERS))]
            stretches[number - 1] = (MOST_SEGMENTS - 40 + past, 40)
            yield f"{number} past the end by {past}", past == 1, table_of(*stretches)


def any_table(rng: random.Random) -> Table:
    """Stretches one behind another, with gaps or none, in any order; then up to three words changed."""
    cuts = sorted(rng.choices(range(MOST_SEGMENTS + 1), k=2 * len(NUMBERS)))
    if rng.random() < 0.4:
        cuts[1:-1:2] = cuts[2::2]       # each begins where the one before ends
    slots = [Slot(rng.choice((0, 1, 1, 1, 2, HIGHEST_FIELD)), first, end - first, sheets.concentration(rng),
                  rng.choice((0, 3, MOST_STEPS - 1))) for first, end in zip(cuts[0::2], cuts[1::2])]
    rng.shuffle(slots)
    for _ in range(rng.choice((0, 0, 0, 1, 1, 2, 3))):
        at = rng.randrange(len(slots))
        name = rng.choice(("opened", "first", "first", "segments", "segments"))
        word = getattr(slots[at], name)
        figure = rng.choice((0, 1, word + 1, max(word - 1, 0), MOST_SEGMENTS, HIGHEST_FIELD, draw_word(rng)))
        slots[at] = slots[at]._replace(**{name: min(figure, HIGHEST_FIELD)})
    return slots


def call_all(library: Library, rng: random.Random, tally: Tally, table: Table, bad: Optional[bool], what: str) -> None:
    """Each call under each number on this table, as it was each time; what the making decides is demanded."""
    shared = figures(rng)

    def pool() -> PoolCalls:
        return pool_with(library, rng, tally, table, shared)

    for number in (*NUMBERS, rng.choice(OUTSIDE)):
        opened = number in NUMBERS and table[number - 1].opened != 0
        here = pool()
        here.close(number)
        if bad is not None:
            must(here, 18 if bad or not opened else 0, f"{what}, closing {number}")
    taken = sum(slot.segments for slot in table if slot.opened)
    room = MOST_SEGMENTS - taken
    free = [number for number in NUMBERS if not table[number - 1].opened]
    for segments in {1, room, room + 1} if free else ():
        if 1 <= segments <= MOST_SEGMENTS:
            number, here = rng.choice(free), pool()
            here.open(number, sheet_of(segments), 5, lengths=[segments] * len(COLUMNS))
            if bad is not None:
                must(here, 17 if segments > room else 18 if bad else 0, f"{what}, opening {number} with {segments}")
    for number in OUTSIDE:
        here = pool()
        here.open(number, sheet_of(1), 5, lengths=[1] * len(COLUMNS))
        must(here, 17, f"{what}, opening {number}")

    def held(name: str) -> None:
        if bad is not None and (here.answer() == 18) != (bad or not slot.opened):
            raise Difference(f"{what}, {name} of {number}: answer {here.answer()}")

    used = [number for number in NUMBERS if number not in free]
    for number in (rng.choice(used or NUMBERS), rng.choice(NUMBERS)):
        slot = table[number - 1]
        here = pool()
        shelf = lend(here, slot.segments)
        here.start(number, 9, shelf)
        held("start")
        here = pool()
        here.step(number, 9, MOST_STEPS, shelf)
        held("step")
        here.report(number, rng.randint(1, max(1, min(slot.segments, MOST_SEGMENTS))), shelf)
        held("report")
        here.search(number, rng.choice((0, HIGHEST, rng.choice(SOME))))
        held("search")


def on_table(what: str, bad: bool, table: Table) -> Trial:
    def trial(library: Library, rng: random.Random, tally: Tally) -> None:
        call_all(library, rng, tally, table, bad, what)
    return trial


def on_any_table(library: Library, rng: random.Random, tally: Tally) -> None:
    call_all(library, rng, tally, any_table(rng), None, "any table")


# Openings of sheets of every kind, and openings that only packing can serve


def opening_of(case: sheets.Case) -> Trial:
    """One sheet under a free number beside two open rivers: the tests of a loading come first."""
    def trial(library: Library, rng: random.Random, tally: Tally) -> None:
        pool = pool_with(library, rng, tally, table_of((3, 10), None, (100, rng.choice((10, 900)))))
        lengths = [MOST_SEGMENTS if "1,024" in case.name else 70] * len(COLUMNS)
        pool.open(rng.choice((2, 2, 2, 1, 0, 9)), case.sheet, rng.choice((5, HIGHEST)), 0, lengths, what=case.name)
    return trial


def sheets_of_every_kind(rng: random.Random) -> Iterator[sheets.Case]:
    for draft in (sheets.plain(), sheets.plain_flows(), sheets.plain_bands()):
        yield from sheets.faulty_pairs(draft)
        yield from sheets.counted_sheets(draft)
        yield from rng.sample(list(sheets.cut_sheets(draft)), 20)
        yield from rng.sample(list(sheets.end_of_range_sheets(draft)), 60)
        yield from islice(sheets.marked_sheets(rng, draft), 10)
    yield from sheets.bench_cases()
    yield from sheets.extreme_rivers()
    yield from sheets.flow_fault_cases()
    yield from sheets.flow_rivers()
    yield from sheets.band_fault_cases()
    yield from sheets.band_flow_cases()
    yield from sheets.band_rivers()
    yield sheets.Case("the longest sheet", sheets.write(sheets.fullest(rng)))
    yield from (sheets.Case(f"{length} random bytes", rng.randbytes(length)) for length in range(0, 60, 9))


def fragments(lengths: list[int], closed: tuple[int, ...], new: list[int]) -> Trial:
    """Rivers opened one after another, some closed, and rivers that need the closed ones' segments together."""
    def trial(library: Library, rng: random.Random, tally: Tally) -> None:
        run = PoolRun(library, rng, tally, [])

        def opened(number: int, segments: int, wanted: int) -> None:
            case = sheets.Case(f"{segments} segments", sheet_of(segments, rng.random() < 0.5), exact="")
            u = sheets.concentration(rng)
            if run.open(number, case.sheet, u):
                run.begin(number, case, u)
            must(run, wanted, f"river {number} of {segments} segments")
            run.hold_apart()
            searched()

        def searched() -> None:
            for number in run.twins:
                search_true(run, number, rng.sample(limits(rng, stretch_of(run, number)), 2))

        def stepped() -> None:
            for number, twin in run.twins.items():
                twin.lend_next_pair()
                u = sheets.concentration(rng)
                if not run.step(number, u, MOST_STEPS, twin.shelf):
                    raise Difference(f"a step of river {number} is refused")
                run.put_alone("step", twin, u, MOST_STEPS, {})
                run.hold_apart()
            searched()

        for number, segments in enumerate(lengths, 1):
            opened(number, segments, 0)
        stepped()
        for number in closed:
            if not run.close(number):
                raise Difference(f"river {number} is not closed")
            del run.twins[number]
            run.hold_apart()
            run.search(number, 0)
            must(run, 18, f"a search of river {number}, which is closed")
        stepped()
        free = MOST_SEGMENTS - sum(twin.n for twin in run.twins.values())
        for number, segments in zip(rng.sample(closed, len(closed)), new):
            if free < MOST_SEGMENTS:
                opened(number, free + 1, 17)
            opened(number, segments, 0)
            free -= segments
            stepped()
        for number in NUMBERS:
            if number not in run.twins and free == 0:
                opened(number, 1, 17)
    return trial


def fragmented(rng: random.Random) -> Iterator[Trial]:
    yield fragments([128] * 8, (1, 3, 5, 7), [512])
    yield fragments([128] * 8, (2, 4, 6, 8), [511, 1])
    yield fragments([1, 1_018, 1, 1, 1, 1, 1], (2,), [1_018])
    yield fragments([1_024], (1,), [1_024])
    yield fragments([512, 512], (1,), [512])
    yield fragments([100] * 8, (1, 2, 3, 4, 5, 6, 7), [924])
    yield fragments([1, 2, 4, 8, 16, 32, 64, 128], (1, 3, 5, 7), [1_024 - 2 - 8 - 32 - 128])
    for _ in range(12):
        count = rng.randint(2, 8)
        lengths = sheets.split(rng, rng.choice((MOST_SEGMENTS, MOST_SEGMENTS, rng.randint(8, MOST_SEGMENTS))), count)
        closed = tuple(rng.sample(range(1, count + 1), rng.randint(1, count)))
        free = MOST_SEGMENTS - sum(lengths) + sum(lengths[number - 1] for number in closed)
        yield fragments(lengths, closed, sheets.split(rng, free, rng.randint(1, min(len(closed), free))))


# Highest figures and searches


def stretch_of(pool: PoolCalls, number: int) -> list[int]:
    """The channel figures of an open river."""
    stretch = pool.table[number - 1].stretch
    return pool.shelf.content["C"][stretch.start:stretch.stop]


def search_true(pool: PoolCalls, number: int, at: list[int]) -> None:
    """Searches at these limits of an open river, whose lists are as its calls left them."""
    figures = stretch_of(pool, number)
    for limit in at:
        hold_search(pool.search(number, limit), figures, limit)


def search_untrue(pool: PoolCalls, number: int) -> None:
    """Searches with other highest figures, while all that is not the river's own is above every limit."""
    name, figures, shared = pool.highest_name(number), stretch_of(pool, number), pool.shared["C"]
    stretch, before, blocks = pool.table[number - 1].stretch, pool.highest(number, {}), block_count(len(figures))
    others = [HIGHEST_FIELD] * len(shared)
    others[stretch.start:stretch.stop] = figures
    pool.put_pool(pool.table, {"C": others})
    for limit in limits(pool.rng, figures):
        for highest in untrue(pool.rng, before[:blocks], limit):
            pool.shelf.put(name, highest + [HIGHEST_FIELD] * (len(before) - blocks))
            found = pool.search(number, limit)
            if all(figure <= limit for figure in highest) and found != NONE_ABOVE:
                raise Difference(f"limit {limit}: segment {found} is named, and no block is to be entered")
    pool.shelf.put(name, before)
    pool.put_pool(pool.table, {"C": shared})


def river_among(segments: int) -> Trial:
    """A river of so many segments behind another one: its highest figures too short, long enough, true and not true."""
    def trial(library: Library, rng: random.Random, tally: Tally) -> None:
        pool = PoolCalls(library, rng, tally)
        beside = min(5, MOST_SEGMENTS - segments)
        blocks, sheet = block_count(segments), sheet_of(segments, True)

        def opened(wanted: int, number: int, told: Told, u: int = 5) -> None:
            pool.open(number, sheet, u, told=told)
            must(pool, wanted, f"an opening of {segments} segments, told {told}, U {u}")

        def searched() -> None:
            search_true(pool, 2, limits(rng, stretch_of(pool, 2)))
            if beside:
                search_true(pool, 4, limits(rng, stretch_of(pool, 4)))

        if beside:
            pool.open(4, sheet_of(beside), 7)
            must(pool, 0, "an opening beside it")
            opened(17, 4, {"highest": 0})
        for length in {blocks - 1, 0}:
            opened(13, 2, {"highest": length})
            opened(13, 2, {"highest": length}, HIGHEST + 1)
            opened(17, 9, {"highest": length})
        opened(14, 2, {"highest": blocks}, HIGHEST + 1)
        opened(0, 2, {"highest": blocks})
        searched()
        shelf = lend(pool, segments)
        for length in {blocks - 1, 0}:
            told = {"highest": length}
            for wanted, call in ((13, lambda: pool.start(2, 5, shelf, told)),
                                 (13, lambda: pool.start(2, HIGHEST + 1, shelf, told)),
                                 (13, lambda: pool.step(2, 5, 9, shelf, told)),
                                 (13, lambda: pool.step(2, HIGHEST + 1, 9, shelf, told)),
                                 (13, lambda: pool.step(2, 5, 0, shelf, told)),
                                 (13, lambda: pool.search(2, 0, told)),
                                 (13, lambda: pool.search(2, HIGHEST_FIELD, told)),
                                 (13, lambda: pool.search(2, 0, {**told, "C": MOST_SEGMENTS - 1})),
                                 (18, lambda: pool.start(3, 5, shelf, told)),
                                 (18, lambda: pool.step(3, 5, 9, shelf, told)),
                                 (18, lambda: pool.search(3, 0, told)),
                                 (0, lambda: pool.report(2, 1, shelf, told))):
                call()
                must(pool, wanted, f"{segments} segments, told {told}")
        for call in (lambda: pool.step(2, sheets.concentration(rng), MOST_STEPS, shelf, {"highest": blocks}),
                     lambda: pool.step(2, sheets.concentration(rng), MOST_STEPS, shelf),
                     lambda: pool.start(2, 6, shelf, {"highest": blocks}),
                     lambda: pool.step(2, HIGHEST, MOST_STEPS, shelf)):
            call()
            must(pool, 0, f"{segments} segments")
            searched()
        any_state = {name: rng.choices(SOME, k=len(content)) for name, content in pool.shared.items()}
        pool.put_pool(pool.table, any_state)            # figures that do not go by the reaches
        pool.step(2, 6, MOST_STEPS, shelf)
        must(pool, 0, f"{segments} segments")
        search_true(pool, 2, limits(rng, stretch_of(pool, 2)))
        search_untrue(pool, 2)
        if beside:                      # the river behind is moved to the front, and its highest figures stay true
            pool.close(4)
            pool.open(5, sheet_of(beside), 8)
            must(pool, 0, "an opening that moves the other")
            search_true(pool, 2, limits(rng, stretch_of(pool, 2)))
            pool.search(4, 0)
            must(pool, 18, "a search of a river that is closed")
    return trial


def at_the_cut(library: Library, rng: random.Random, tally: Tally) -> None:
    """A step whose C' is 1,000,000,001 before the cut at 10^9: the highest figure is that of the cut one."""
    pool = pool_with(library, rng, tally, table_of((7, 1)), dict.fromkeys(FIGURES, [HIGHEST] * MOST_SEGMENTS))
    shelf = lend(pool, 1)
    for name, figure in ABOVE_THE_CUT.items():
        shelf.put(name, [figure, *shelf.content[name][1:]])
    pool.step(1, HIGHEST, MOST_STEPS, shelf)
    must(pool, 0, "a step at the cut")
    if (shelf.content["y"][0], pool.highest(1, {})[0]) != (HIGHEST + 1, HIGHEST):
        raise Difference(f"before the cut {shelf.content['y'][0]}, the highest figure {pool.highest(1, {})[0]}")
    search_true(pool, 1, limits(rng, stretch_of(pool, 1)))


# Runs


def stock_of(rng: random.Random, lengths: list[int], steps: int, exact: str) -> list[sheets.Case]:
    """A sheet for each of these counts of segments, with flow rows, with bands and without."""
    found = []
    for segments in lengths:
        draft = sheets.good_river(rng, segments, rng.randint(1, steps), rng.choice(sheets.DRAWERS))
        found.append(sheets.Case(sheets.describe(draft), sheets.write(draft), exact=exact))
    return found


def pool_run(stock: list[sheets.Case], calls: int) -> Trial:
    def trial(library: Library, rng: random.Random, tally: Tally) -> None:
        PoolRun(library, rng, tally, stock).go(calls)
    return trial


def small_pools(rng: random.Random, count: int) -> Iterator[Trial]:
    """Few segments: the exact rivers in fractions."""
    for _ in range(count):
        yield pool_run(stock_of(rng, [rng.randint(1, 4) for _ in range(6)], 6, "fractions"), 120)


def pools(rng: random.Random, count: int, calls: int, exact: str) -> Iterator[Trial]:
    """Rivers of every length that do not all fit together."""
    for _ in range(count):
        lengths = [sheets.log_uniform(rng, 1, rng.choice((100, 400))) for _ in range(7)]
        yield pool_run(stock_of(rng, lengths, 12, exact), calls)


def full_pools(rng: random.Random, count: int) -> Iterator[Trial]:
    """Rivers that have 1,024 segments together are opened, then calls on them and on some more; eight are open once."""
    most = 0

    def full_run(stock: list[sheets.Case], full: int) -> Trial:
        def trial(library: Library, rng: random.Random, tally: Tally) -> None:
            nonlocal most
            run = PoolRun(library, rng, tally, stock)
            for number, case in zip(rng.sample(NUMBERS, full), stock):
                u = sheets.concentration(rng)
                run.open(number, case.sheet, u)
                must(run, 0, f"river {number} of a full pool")
                run.begin(number, case, u)
                run.hold_apart()
            for _ in range(100):
                most = max(most, sum(slot.opened != 0 for slot in run.table))
                run.one_call()
        return trial

    def eight_open(library: Library, rng: random.Random, tally: Tally) -> None:
        if most != len(NUMBERS):
            raise Difference(f"no more than {most} rivers were open at once")

    for at in range(count):
        full = 2 + at % (len(NUMBERS) - 1)
        lengths = [*sheets.split(rng, MOST_SEGMENTS, full), 1, rng.randint(1, 200)]
        yield full_run(stock_of(rng, lengths, 8, ""), full)
    yield eight_open


def own_rivers(count: int) -> Trial:
    """Sheets' own rivers, up to eight at once: each prints, between the others' steps, the listing of its sheet."""
    def trial(library: Library, rng: random.Random, tally: Tally) -> None:
        pool = PoolCalls(library, rng, tally)
        waiting = stock_of(rng, [sheets.log_uniform(rng, 1, 150) for _ in range(count)], 10, "")
        running: dict[int, tuple[Run, list[str]]] = {}
        while waiting or running:
            number = rng.choice(NUMBERS)
            if number in running:
                run, lines = running[number]
                own_step(pool, number, run, lines)
                if run.moves == run.steps:
                    wanted = model.listing(run.sheet).decode().splitlines()
                    if [model.HEADING, *lines, f"done {run.moves}"] != wanted:
                        raise Difference(f"the listing of river {number} is not its own: {lines[-3:]}")
                    if not pool.close(number):
                        raise Difference(f"river {number} is not closed")
                    del running[number]
            elif waiting:
                sheet = waiting[-1].sheet
                if pool.open(number, sheet, model.read_sheet(sheet).rows[0].concentration):
                    running[number] = Run(library, rng, tally, sheet, ""), []
                    waiting.pop()
    return trial


def own_step(pool: PoolCalls, number: int, run: Run, lines: list[str]) -> None:
    """The sheet's next step and, at the print interval, the gauges' lines."""
    run.lend_next_pair()
    starts, concentrations = (list(each) for each in zip(*run.found.rows))
    u = model.upstream(starts, concentrations, run.steps, run.moves + 1)
    if not pool.step(number, u, run.steps, run.shelf):
        raise Difference(f"step {run.moves + 1} of river {number} is refused")
    run.moves += 1
    search_true(pool, number, pool.rng.sample(limits(pool.rng, stretch_of(pool, number)), 2))
    if run.moves % run.found.header.interval == 0:
        for gauge in run.found.gauges:
            if not pool.report(number, gauge, run.shelf):
                raise Difference(f"a report of river {number} is refused")
            told = (pool.shelf.content[name][0] for name in ("c", "z", "kdw"))
            lines.append(" ".join(map(str, (run.moves, gauge, *told))))
    if run.moves == run.steps:
        pool.step(number, u, run.steps, run.shelf)
        must(pool, 15, f"a step of river {number} past its last")


OPENED = {ACCEPTED, *((number, None) for number in (17, 18, 13, 14))}
CALLED = {ACCEPTED, (18, None), (13, None), (14, None), (14, "segment")}
CLOSED_ANSWERS = {ACCEPTED, (18, None)}
SHEET_ANSWERS = {ACCEPTED, *((number, None) for number in (1, 2, 3, 4, 5, 7, 17)), (6, "reach"), (8, "row"),
                 (9, "row"), (10, "segment"), (11, "segment"), (12, "segment"), (16, "row"), (19, "reach")}
SEARCHED = {ACCEPTED, ABOVE, (18, None), (13, None)}
RUN_ANSWERS = {"pool_open": {ACCEPTED, (17, None), (13, None), (14, None)}, "pool_start": CALLED,
               "pool_step": CALLED | {(15, None)}, "pool_report": CALLED, "pool_search": SEARCHED,
               "pool_close": CLOSED_ANSWERS}
FULL_ANSWERS = {**dict.fromkeys(("pool_start", "pool_report", "pool_close"), {ACCEPTED}),
                "pool_open": {ACCEPTED, (17, None)}, "pool_step": CALLED | {(15, None)},
                "pool_search": {ACCEPTED, ABOVE}}
TABLE_ANSWERS = {"pool_open": {ACCEPTED, (17, None), (18, None)}, "pool_close": CLOSED_ANSWERS,
                 "pool_search": {ACCEPTED, ABOVE, (18, None)},
                 **dict.fromkeys(("pool_start", "pool_step", "pool_report"), {ACCEPTED, (18, None)})}

GROUPS = (
    Group("the order of tests in an opening", lambda rng: map(order_of_opening, openings(rng)),
          {"pool_open": OPENED | SHEET_ANSWERS - {(7, None)}}),
    Group("the order of tests in start, step, report and search",
          lambda rng: map(order_of_calls, ("start", "step", "report", "search")),
          {"pool_start": CALLED, "pool_step": CALLED | {(15, None)}, "pool_report": CALLED, "pool_search": SEARCHED}),
    Group("rivers of no segment", lambda rng: iter((no_segment,)),
          {"pool_start": {ACCEPTED, (13, None), (18, None)}, "pool_search": {(13, None), (18, None)}}),
    Group("tables at the limits", lambda rng: (on_table(*each) for each in named_tables()), TABLE_ANSWERS),
    Group("tables of any content", lambda rng: (on_any_table for _ in range(200)), TABLE_ANSWERS),
    Group("openings of sheets of every kind", lambda rng: map(opening_of, sheets_of_every_kind(rng)),
          {"pool_open": SHEET_ANSWERS}),
    Group("openings that only packing can serve", fragmented,
          {"pool_open": {ACCEPTED, (17, None)}, "pool_step": {ACCEPTED}, "pool_close": {ACCEPTED},
           "pool_search": {ACCEPTED, ABOVE, (18, None)}}),
    Group("highest figures and searches", lambda rng: iter((*map(river_among, LENGTHS), at_the_cut)),
          {"pool_open": {ACCEPTED, (17, None), (13, None), (14, None)}, "pool_search": SEARCHED,
           **dict.fromkeys(("pool_start", "pool_step"), {ACCEPTED, (13, None), (18, None)})}),
    Group("the sheets' own rivers, eight at once", lambda rng: map(own_rivers, (12, 12, 20)),
          {"pool_open": {ACCEPTED}, "pool_step": {ACCEPTED, (15, None)}, "pool_report": {ACCEPTED},
           "pool_search": {ACCEPTED, ABOVE}, "pool_close": {ACCEPTED}}),
    Group("calls of every kind, in fractions", lambda rng: small_pools(rng, 50), RUN_ANSWERS, True),
    Group("calls of every kind, between bounds", lambda rng: pools(rng, 14, 150, "brackets"), RUN_ANSWERS, True),
    Group("calls of every kind, beside the rivers alone", lambda rng: pools(rng, 30, 250, ""), RUN_ANSWERS),
    Group("calls on a full pool", lambda rng: full_pools(rng, 15), FULL_ANSWERS),
)


def no_others(archive: str, folder: Path, total: Tally) -> None:
    """Examples and stack are test_library.py's."""


if __name__ == "__main__":
    sys.exit(groups.main("Tests several rivers on shared lists over the library's boundary.", GROUPS, no_others))
