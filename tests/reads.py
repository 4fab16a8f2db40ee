"""How much of a river a search reads, by reads.c on memory that must not be read."""
from __future__ import annotations

import subprocess
from pathlib import Path
from typing import NamedTuple

from library import INCLUDE, ROOT, STRICT, compiled
from model import block_count

CONTENTS = 3                        # of the block to enter none, the first or the last segment is above the limit
SIDES = 2                           # what lies before it is out of reach, or what lies behind it
WAYS = 2                            # a river alone, or on shared lists


class Reads(NamedTuple):
    searches: int
    wrong: int
    said: list[str]


def measured(archive: str, folder: Path, lengths: tuple[int, ...]) -> Reads:
    """Searches of rivers of these lengths that enter one block, each in turn, or none; and those that read more."""
    path = compiled(folder / "reads", "-O1", "-std=gnu99", *STRICT, INCLUDE, str(ROOT / "tests" / "reads.c"), archive)
    run = subprocess.run([path, *map(str, lengths)], capture_output=True, text=True, timeout=60)
    *said, last = run.stdout.splitlines() or [""]
    words = last.split()
    if run.returncode or words[::2] != ["searches", "wrong"]:
        return Reads(0, 1, [f"reads ends with {run.returncode}: {last}"])
    return Reads(int(words[1]), int(words[3]), said)


def wanted(lengths: tuple[int, ...]) -> int:
    """How many searches there are."""
    return WAYS * sum(block_count(n) * CONTENTS * SIDES + 1 for n in lengths)
