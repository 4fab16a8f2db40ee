"""Groups of trials that are put to the library: how they run, what they must show, and the count at the end."""
from __future__ import annotations

import argparse
import random
import subprocess
import tempfile
import time
from collections import Counter
from collections.abc import Callable, Iterator
from pathlib import Path
from typing import NamedTuple

import exact
from calls import Answer, Difference, Tally
from library import BuildFault, Library, shared_object

MOST_SHOWN = 5                      # differences described
MOST_DIFFERENCES = 20               # after which the run is given up

Trial = Callable[[Library, random.Random, Tally], None]
Others = Callable[[str, Path, Tally], None]     # what is tested with the archive beside the groups


class GivenUp(Exception):
    """Too many differences."""


def say(line: str) -> None:
    print(line, flush=True)


class Group(NamedTuple):
    """A group of trials, and the answers that it must show."""

    title: str
    make: Callable[[random.Random], Iterator[Trial]]
    answers: dict[str, set[Answer]]
    exact: bool = False             # figures are held to the exact river


def run_group(library: Library, group: Group, seed: str, total: Tally) -> None:
    """One group: every trial, then what the group as a whole must have shown."""
    own = Tally()
    begin = time.monotonic()
    rng = random.Random(f"{seed} {group.title}")
    for number, trial in enumerate(group.make(rng)):
        try:
            trial(library, random.Random(f"{seed} {group.title} {number}"), own)
        except Difference as difference:
            own.differences += 1
            if total.differences + own.differences <= MOST_SHOWN:
                say(f"  trial {number}: {difference}")
            if own.differences >= MOST_DIFFERENCES:
                break
    missing = {f"{name} {answer}" for name, answers in group.answers.items()
               for answer in answers - set(own.answers.get(name, ()))}
    if missing or (group.exact and own.held == 0):
        own.differences += 1
        say(f"  the group shows too little: missing {sorted(missing)}, {own.held} figures held")
    for name, counter in own.answers.items():
        total.answers.setdefault(name, Counter()).update(counter)
    total.held += own.held
    total.per_step = max(total.per_step, own.per_step)
    total.differences += own.differences
    line = f"{group.title}: {own.calls} calls"
    if group.exact:
        line += f", {own.held} figures within {float(own.per_step):.3f} per step"
    say(f"{line}, {own.differences} differences ({time.monotonic() - begin:.1f} s)")
    if total.differences >= MOST_DIFFERENCES:
        raise GivenUp(f"given up after {total.differences} differences")


def arguments(what: str) -> argparse.Namespace:
    parser = argparse.ArgumentParser(description=what)
    parser.add_argument("archive", help="path of libyumbaqel.a")
    parser.add_argument("--seed", type=int, default=1, help="fixes every call that is drawn")
    parser.add_argument("--long", action="store_true", help="go on with new draws")
    parser.add_argument("--minutes", type=float, default=10.0, help="how long a long run goes on")
    return parser.parse_args()


def run_all(asked: argparse.Namespace, groups: tuple[Group, ...], others: Others, folder: Path, total: Tally) -> None:
    end = time.monotonic() + 60 * asked.minutes
    library = Library(shared_object(asked.archive, folder))
    for group in groups:
        run_group(library, group, str(asked.seed), total)
    others(asked.archive, folder, total)
    number = 1
    while asked.long and time.monotonic() < end:
        number += 1
        say(f"round {number}")
        for group in groups:
            if time.monotonic() < end:
                run_group(library, group, f"{asked.seed} round {number}", total)


def main(what: str, groups: tuple[Group, ...], others: Others) -> int:
    """All groups and the others; 0 only when every group ran, showed every answer that it must and agreed."""
    asked = arguments(what)
    total = Tally()
    begin = time.monotonic()
    try:
        with tempfile.TemporaryDirectory(prefix="yumbaqel-") as folder:
            run_all(asked, groups, others, Path(folder), total)
    except (BuildFault, GivenUp, OSError, subprocess.TimeoutExpired) as fault:
        say(f"FAILED: {fault}")
        return 1
    for name, counter in sorted(total.answers.items()):
        shown = (f"{number}{' ' + kind if kind else ''}: {count}" for (number, kind), count
                 in sorted(counter.items(), key=lambda pair: (pair[0][0], pair[0][1] or "")))
        say(f"  {name}: {', '.join(shown)}")
    say(f"seed {asked.seed}, {time.monotonic() - begin:.0f} s: {total.calls} calls, {total.held} figures "
        f"within {float(total.per_step):.3f} per step of the exact river, {exact.ALLOWED} allowed")
    if total.differences or total.held == 0:
        say(f"FAILED: {total.differences} differences")
        return 1
    say("passed")
    return 0
