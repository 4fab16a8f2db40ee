"""The stack that each call of the library takes, by stack.c on a painted stack."""
from __future__ import annotations

import random
import subprocess
from itertools import chain
from pathlib import Path

import sheets
from library import INCLUDE, ROOT, compiled


def measured(archive: str, folder: Path) -> dict[str, int]:
    """The most bytes that each call took on any of the sheets, and what the header states."""
    path = compiled(folder / "stack", "-O1", "-std=gnu99", "-Wall", "-Wextra", "-Werror", INCLUDE,
                    str(ROOT / "tests" / "stack.c"), archive)
    rng = random.Random(1)
    found: dict[str, int] = {}
    cases = chain(sheets.large_rivers(rng, 1), sheets.faulty_pairs(sheets.plain_bands()))
    for sheet in (sheets.write(sheets.fullest(rng)), sheets.write(sheets.plain()), *(each.sheet for each in cases)):
        run = subprocess.run([path], input=sheet, capture_output=True, timeout=60)
        for line in run.stdout.decode().splitlines():
            name, used = line.split()
            found[name] = max(found.get(name, 0), int(used))
    return found
