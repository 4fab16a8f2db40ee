"""Tests program `river` from outside, over sheets of every kind.

    python3 tests/test_river.py PATH_TO_RIVER [--seed N] [--long [--minutes N]] [--save DIR]

Every byte that the program prints is compared with the model's listing, and the
figures of accepted rivers with the exact river: at most 6 x n, sediment 6 x n x Kd.
The exit status is 0 only when every group ran, held what it must and agreed.
"""
from __future__ import annotations

import argparse
import random
import sys
import tempfile
import time
from collections import Counter
from collections.abc import Callable, Iterable, Iterator
from concurrent.futures import ProcessPoolExecutor
from fractions import Fraction
from itertools import islice
from pathlib import Path
from typing import NamedTuple

import bench
import check_vectors
import exact
import model
import outputs
import sheets
from program import Endless, ProgramFault, first_difference, printed, program_path
from sheets import ACCEPTED, Case

AT_ONCE = 2                         # programs run side by side
MOST_SHOWN = 3                      # differences described in each group
MOST_DIFFERENCES = 20               # after which a group is given up
VECTORS = Path(__file__).parent / "vectors"     # of document 01, with folders for the requests of document 02


class Outcome(NamedTuple):
    """What came of one sheet."""

    case: Case
    number: int                     # ACCEPTED or the refusal, by the model
    difference: str                 # empty when all agrees
    held: int                       # figures held to the exact river
    per_step: float                 # their largest distance, for each step
    printed: bytes
    wanted: bytes
    endless: bool = False           # the program had to be stopped


def number_of(listing: bytes) -> int:
    return int(listing.split()[1]) if listing.startswith(b"refused") else ACCEPTED


def held_to_exact(sheet: bytes, listing: bytes, kind: str) -> tuple[int, float | Fraction]:
    """How many printed figures were held to the exact river, and the largest distance per step."""
    river = exact.SheetsRiver(sheet, kind)
    count, largest = 0, Fraction(0)
    for line in listing.splitlines()[1:-1]:
        step, gauge, *figures = map(int, line.split())
        river.step_to(step)
        largest = max(largest, river.per_step(gauge, tuple(figures)))
        count += len(figures)
    return count, largest


def try_case(path: str, case: Case) -> Outcome:
    """Runs the program over one sheet and looks at all that it printed."""
    wanted = model.listing(case.sheet)
    number = number_of(wanted)
    faults: list[str] = []
    listing, held, largest, endless = b"", 0, Fraction(0), False
    if case.number is not None and case.number != number:
        faults.append(f"made to give {case.number}, the model gives {number}")
    try:
        listing = printed(path, case.sheet, case.pauses)
        if listing != wanted:
            faults.append(first_difference(listing, wanted))
        if case.twin and not wanted == printed(path, case.twin) == model.listing(case.twin):
            faults.append("its twin has another listing")
        if case.exact and number == ACCEPTED and listing.startswith(model.HEADING.encode()):
            held, largest = held_to_exact(case.sheet, listing, case.exact)
            if largest > exact.ALLOWED:
                faults.append(f"{float(largest):.3f} per step from the exact river, over {exact.ALLOWED}")
    except (ProgramFault, ValueError, ArithmeticError, LookupError) as fault:
        faults.append(f"{type(fault).__name__}: {fault}")
        endless = isinstance(fault, Endless)
    return Outcome(case, number, "; ".join(faults), held, float(largest), listing, wanted, endless)


class Group(NamedTuple):
    """A group of sheets, and what it must show: so many sheets, these answers, figures held."""

    title: str
    make: Callable[[random.Random], Iterator[Case]]
    least: int
    answers: set[int]
    exact: bool = False             # figures are held to the exact river
    endless: bool = False           # drawn anew in each round of a long run


GOOD = {ACCEPTED}
REFUSALS = set(range(1, 13))
FLOW_REFUSALS = REFUSALS | {16}
BAND_REFUSALS = FLOW_REFUSALS | {19}
PLAIN, FLOWS, BANDS = sheets.plain(), sheets.plain_flows(), sheets.plain_bands()


class Least(NamedTuple):
    """How many sheets the groups of a mark have at least, where that goes by the sections."""

    cut: int
    counts: int
    ends: int
    pairs: int


def groups_of(what: str, draft: sheets.Draft, draw: sheets.Drawer, refusals: set[int], least: Least) -> tuple[Group, ...]:
    """The groups that sheets with flow rows and sheets with bands have in common: damaged ones, and rivers drawn."""
    def group(title: str, make: Callable[[random.Random], Iterator[Case]], least: int, answers: set[int],
              exact: bool = False, endless: bool = False) -> Group:
        return Group(f"{what}: {title}", make, least, answers, exact, endless)

    return (
        group("sheets cut short", lambda rng: sheets.cut_sheets(draft), least.cut, {1, 2}),
        group("sheets with bytes added", lambda rng: sheets.lengthened_sheets(rng, draft), 70, {1, 4}),
        group("other marks", lambda rng: sheets.marked_sheets(rng, draft), 130, {1, 2, 3}),
        group("other counts", lambda rng: sheets.counted_sheets(draft), least.counts, {2, 3, 4}),
        group("fields at the ends of their ranges", lambda rng: sheets.end_of_range_sheets(draft), least.ends,
              GOOD | refusals - {1, 2, 3, 4}),
        group("rows and gauges out of order", lambda rng: sheets.disordered_sheets(draft), 30, GOOD | {8, 9}),
        group("starts and top flows at fault", lambda rng: sheets.disordered_flows(draft), 40, GOOD | {16}, exact=True),
        group("two faults at once", lambda rng: sheets.faulty_pairs(draft), least.pairs, refusals - {12}),
        group("several faults at once", lambda rng: sheets.many_faults(rng, draft, 200), 200, refusals - {12},
              endless=True),
        group("sheets in pieces", lambda rng: sheets.paused_sheets(rng, draft), 11, GOOD | {2, 4}),
        group("changed sheets", lambda rng: sheets.changed_sheets(rng, 400, draw=draw), 400,
              GOOD | {2, 3, 5, 6} | refusals - REFUSALS, endless=True),
        group("rivers with wild fields", lambda rng: sheets.unsifted_rivers(rng, 300, draw), 300,
              GOOD | {10, 11, 12}, endless=True),
        group("small rivers, in fractions", lambda rng: sheets.small_rivers(rng, 120, draw), 120, GOOD, True, True),
        group("rivers of all shapes", lambda rng: sheets.rivers(rng, 120, draw=draw), 120, GOOD, True, True),
        group("half-step sums at one whole", lambda rng: sheets.tight_rivers(rng, 60, draw), 80, GOOD | {12}, True, True),
        group("figures at the highest", lambda rng: sheets.highest_rivers(rng, 80, draw), 80, GOOD, True, True),
        group("large rivers", lambda rng: sheets.large_rivers(rng, 2, draw=draw), 2, GOOD, True, True),
        group("many steps", lambda rng: sheets.long_rivers(rng, 3, draw=draw), 3, GOOD, True, True))


GROUPS = (
    Group("the document's bench", lambda rng: sheets.bench_cases(), 14, GOOD | {6, 7, 10, 11, 12}, exact=True),
    Group("extreme rivers", lambda rng: sheets.extreme_rivers(), 50, GOOD | {5, 8, 9, 10, 11, 12}, exact=True),
    Group("lateral flow at its limits", lambda rng: sheets.lateral_rivers(rng, 40), 200, GOOD | {10}, True, True),
    Group("sheets cut short", lambda rng: sheets.cut_sheets(PLAIN), 250, {1, 2}),
    Group("sheets with bytes added", lambda rng: sheets.lengthened_sheets(rng, PLAIN), 70, {1, 4}),
    Group("the longest sheets", lambda rng: sheets.longest_sheets(rng), 24, GOOD | {2, 4}),
    Group("other marks", lambda rng: sheets.marked_sheets(rng, PLAIN), 130, {1, 2, 3}),
    Group("other counts", lambda rng: sheets.counted_sheets(PLAIN), 150, {2, 3, 4}),
    Group("fields at the ends of their ranges", lambda rng: sheets.end_of_range_sheets(PLAIN), 400,
          GOOD | REFUSALS - {1, 2, 3, 4}),
    Group("rows and gauges out of order", lambda rng: sheets.disordered_sheets(PLAIN), 30, GOOD | {8, 9}),
    Group("two faults at once", lambda rng: sheets.faulty_pairs(PLAIN), 190, REFUSALS - {12}),
    Group("several faults at once", lambda rng: sheets.many_faults(rng, PLAIN, 200), 200, REFUSALS - {12},
          endless=True),
    Group("sheets in pieces", lambda rng: sheets.paused_sheets(rng, PLAIN), 11, GOOD | {2, 4}),
    Group("changed sheets", lambda rng: sheets.changed_sheets(rng, 400), 400, GOOD | {2, 3, 5, 6},
          endless=True),
    Group("rivers with wild fields", lambda rng: sheets.unsifted_rivers(rng, 300), 300, GOOD | {10, 11, 12},
          endless=True),
    Group("small rivers, in fractions", lambda rng: sheets.small_rivers(rng, 120), 120, GOOD, True, True),
    Group("rivers of all shapes", lambda rng: sheets.rivers(rng, 180), 180, GOOD, True, True),
    Group("half-step sums at one whole", lambda rng: sheets.tight_rivers(rng, 100), 150, GOOD | {12}, True,
          True),
    Group("figures at the highest", lambda rng: sheets.highest_rivers(rng, 120), 120, GOOD, True, True),
    Group("large rivers", lambda rng: sheets.large_rivers(rng, 5), 5, GOOD, True, True),
    Group("many steps", lambda rng: sheets.long_rivers(rng, 4), 4, GOOD, True, True),
    Group("the broadest sheets", lambda rng: sheets.broad_rivers(rng), 3, GOOD),
    # sheets with flow rows
    Group("rivers whose flow changes", lambda rng: sheets.flow_rivers(), 19, GOOD, exact=True),
    Group("flows at fault", lambda rng: sheets.flow_fault_cases(), 65, {10, 11, 12}),
    Group("marks and sections that do not fit", lambda rng: sheets.other_marks(FLOWS), 10, GOOD | {1, 2, 3, 4}),
    *groups_of("flow rows", FLOWS, sheets.draw_flow_river, FLOW_REFUSALS, Least(280, 200, 450, 230)),
    # sheets with bands
    Group("rivers with bands", lambda rng: sheets.band_rivers(), 59, GOOD, exact=True),
    Group("rivers with bands beside rivers without", lambda rng: sheets.band_twins(rng, 60), 60, GOOD, endless=True),
    Group("bands at fault", lambda rng: sheets.band_fault_cases(), 199, {19}),
    Group("flows at fault by their bands", lambda rng: sheets.band_flow_cases(), 16, {10, 11, 12}),
    Group("marks, sections and counts of bands that do not fit", lambda rng: sheets.band_marks(BANDS), 20,
          GOOD | {1, 2, 3, 4}),
    *groups_of("bands", BANDS, sheets.draw_band_river, BAND_REFUSALS, Least(400, 350, 670, 265)),
)


class Keeper:
    """Saves the sheets that gave a difference."""

    def __init__(self, folder: str) -> None:
        self.folder = folder
        self.count = 0

    def save(self, outcome: Outcome) -> str:
        if not self.folder:
            self.folder = tempfile.mkdtemp(prefix="river-sheets-")
        self.count += 1
        place = Path(self.folder)
        place.mkdir(parents=True, exist_ok=True)
        name = f"{self.count:05d}"
        (place / f"{name}.otr").write_bytes(outcome.case.sheet)
        (place / f"{name}.txt").write_bytes(outcome.wanted)
        (place / f"{name}.printed").write_bytes(outcome.printed)
        return str(place / f"{name}.otr")


class Tally:
    """What the whole run has seen."""

    def __init__(self) -> None:
        self.answers: Counter[int] = Counter()
        self.held = 0
        self.per_step = 0.0
        self.differences = 0
        self.groups = 0
        self.checks = 0

    def take(self, outcome: Outcome) -> None:
        self.answers[outcome.number] += 1
        self.held += outcome.held
        self.per_step = max(self.per_step, outcome.per_step)
        self.differences += bool(outcome.difference)

    @property
    def sheets(self) -> int:
        return sum(self.answers.values())


def say(line: str) -> None:
    print(line, flush=True)


def in_turn(pool: ProcessPoolExecutor, path: str, cases: Iterable[Case]) -> Iterator[Outcome]:
    """The outcomes in the order of the cases, a few of them under way at a time."""
    cases = iter(cases)
    waiting = [pool.submit(try_case, path, case) for case in islice(cases, 4 * AT_ONCE)]
    while waiting:
        yield waiting.pop(0).result()
        waiting += [pool.submit(try_case, path, case) for case in islice(cases, 1)]


def run_group(pool: ProcessPoolExecutor, path: str, group: Group, rng: random.Random, total: Tally,
              keeper: Keeper) -> None:
    """One group: every sheet, then what the group as a whole must have shown."""
    own = Tally()
    begin = time.monotonic()
    for outcome in in_turn(pool, path, group.make(rng)):
        own.take(outcome)
        total.take(outcome)
        if outcome.difference and own.differences <= MOST_SHOWN:
            say(f"  {outcome.case.name}: {outcome.difference}\n    saved as {keeper.save(outcome)}")
        if outcome.endless:
            raise ProgramFault("the program had to be stopped; the rest is left out")
        if own.differences >= MOST_DIFFERENCES:
            say(f"  given up after {own.differences} differences")
            break
    else:
        missing = group.answers - set(own.answers)
        if own.sheets < max(1, group.least) or missing or (group.exact and own.held == 0):
            own.differences += 1
            total.differences += 1
            say(f"  the group shows too little: {own.sheets} sheets of {group.least}, {own.held} figures held, "
                f"answers missing {sorted(missing)}")
    total.groups += 1
    accepted = own.answers[ACCEPTED]
    line = f"{group.title}: {own.sheets} sheets, {accepted} accepted, {own.sheets - accepted} refused"
    if group.exact:
        line += f", {own.held} figures within {own.per_step:.3f} per step"
    say(f"{line}, {own.differences} differences ({time.monotonic() - begin:.1f} s)")


def run_checks(total: Tally) -> None:
    """The documents' bench figures, flow rows, bands and tests 13 to 15, of the model."""
    faults = 0
    count = 0
    for check in bench.checks():
        count += 1
        if check.found != check.wanted:
            faults += 1
            say(f"  {check.name}: {check.found!r}, not {check.wanted!r}")
    if count == 0:
        faults += 1
    total.checks += count
    total.differences += faults
    total.groups += 1
    say(f"the model's bench figures and calls: {count} checks, {faults} differences")


def run_vectors(path: str, total: Tally) -> None:
    """The fixed vectors beside this file; those of calls are for the library (test_forecast.py)."""
    requests = sorted(folder for folder in VECTORS.glob("request-*") if not (folder / "calls.json").exists())
    folders = (VECTORS, *requests)
    found = [vector for folder in folders for vector in check_vectors.vectors(folder)]
    faults = list(check_vectors.differences(path, found))
    for fault in faults[:MOST_SHOWN]:
        say(f"  {fault}")
    answers = {number_of(vector.listing) for vector in found}
    if answers != BAND_REFUSALS | GOOD:
        faults.append("answers missing")
        say(f"  the vectors show only the answers {sorted(answers)}")
    total.checks += len(found)
    total.differences += len(faults)
    total.groups += 1
    say(f"fixed vectors: {len(found)} sheets, {len(faults)} differences")


def run_outputs(path: str, total: Tally) -> None:
    """Outputs that fail in the middle of a listing."""
    faults = list(outputs.differences(path))
    for fault in faults:
        say(f"  {fault}")
    total.checks += len(outputs.OUTPUTS)
    total.differences += len(faults)
    total.groups += 1
    say(f"outputs that fail: {len(outputs.OUTPUTS)} runs, {len(faults)} differences")


def arguments() -> argparse.Namespace:
    parser = argparse.ArgumentParser(description="Tests program `river` from outside.")
    parser.add_argument("river", help="path of the program")
    parser.add_argument("--seed", type=int, default=1, help="fixes every sheet that is drawn")
    parser.add_argument("--long", action="store_true", help="go on with new draws")
    parser.add_argument("--minutes", type=float, default=10.0, help="how long a long run goes on")
    parser.add_argument("--save", default="", help="folder for sheets that gave a difference")
    return parser.parse_args()


def run_all(path: str, asked: argparse.Namespace, total: Tally) -> None:
    """Every group once; in a long run, then the drawn ones again and again."""
    keeper = Keeper(asked.save)
    end = time.monotonic() + 60 * asked.minutes
    run_checks(total)
    run_vectors(path, total)
    run_outputs(path, total)
    pool = ProcessPoolExecutor(AT_ONCE)
    try:
        for group in GROUPS:
            run_group(pool, path, group, random.Random(f"{asked.seed} {group.title}"), total, keeper)
        number = 1
        while asked.long and time.monotonic() < end and total.differences < MOST_DIFFERENCES:
            number += 1
            say(f"round {number}")
            for group in GROUPS:
                if group.endless and time.monotonic() < end:
                    rng = random.Random(f"{asked.seed} {group.title} {number}")
                    run_group(pool, path, group, rng, total, keeper)
    finally:
        pool.shutdown(cancel_futures=True)


def main() -> int:
    asked = arguments()
    total = Tally()
    begin = time.monotonic()
    try:
        path = program_path(asked.river)
        run_all(path, asked, total)
    except (ProgramFault, OSError) as fault:
        say(f"FAILED: {fault}")
        return 1
    accepted = total.answers[ACCEPTED]
    say(f"seed {asked.seed}, {time.monotonic() - begin:.0f} s: {total.groups} groups, {total.checks} checks, "
        f"{total.sheets} sheets ({accepted} accepted, {total.sheets - accepted} refused); "
        f"{total.held} figures within {total.per_step:.3f} per step of the exact river, "
        f"{exact.ALLOWED} allowed")
    unseen = (BAND_REFUSALS | GOOD) - set(total.answers)
    if total.differences or unseen or total.held == 0 or total.groups < len(GROUPS) + 3:
        say(f"FAILED: {total.differences} differences, answers never seen {sorted(unseen)}")
        return 1
    say("passed")
    return 0


if __name__ == "__main__":
    sys.exit(main())
