"""Runs program `river` over a folder of vectors and compares what it prints.

    python3 check_vectors.py PATH_TO_RIVER DIR

NNNNN.otr is a sheet, NNNNN.txt its listing; answers.txt has a loading's answer for
each, with the place, which the listing does not show: it is compared with the model's.
Where there is no place the answer ends with the number, or with None.  A folder of calls
(calls.json) is put to the library by test_forecast.py.
"""
from __future__ import annotations

import sys
from collections.abc import Iterator
from pathlib import Path
from typing import NamedTuple

import model
from program import Endless, ProgramFault, first_difference, printed, program_path


class Vector(NamedTuple):
    name: str
    sheet: bytes
    listing: bytes
    answer: str


def vectors(folder: Path) -> list[Vector]:
    """Every sheet of the folder must have its listing and its answer, and the other way round."""
    lines = (folder / "answers.txt").read_text().splitlines()
    answers = dict(line.removesuffix(" None").split(" ", 1) for line in lines)
    for kind in ("*.otr", "[0-9]*.txt"):
        if {path.stem for path in folder.glob(kind)} != set(answers):
            raise ProgramFault(f"{folder}: {kind} and answers.txt do not name the same vectors")
    return [Vector(f"{folder.name}/{name}", (folder / f"{name}.otr").read_bytes(),
                   (folder / f"{name}.txt").read_bytes(), answer) for name, answer in sorted(answers.items())]


def model_answer(sheet: bytes) -> str:
    """The model's answer as answers.txt writes it."""
    refusal = model.answer(sheet)
    if refusal is None:
        return "accepted"
    return f"refused {refusal.number}" + (f" {refusal.place}" if refusal.place else "")


def differences(path: str, found: list[Vector]) -> Iterator[str]:
    """A line for each vector that the program or the model answers otherwise."""
    for vector in found:
        if model_answer(vector.sheet) != vector.answer or model.listing(vector.sheet) != vector.listing:
            yield f"{vector.name}: the model says {model_answer(vector.sheet)}, the vector {vector.answer}"
        try:
            listing = printed(path, vector.sheet)
        except Endless as fault:
            yield f"{vector.name}: {fault}; the rest is left out"
            return
        except ProgramFault as fault:
            yield f"{vector.name}: {fault}"
            continue
        if listing != vector.listing:
            yield f"{vector.name}: {first_difference(listing, vector.listing)}"


def main(arguments: list[str]) -> int:
    if len(arguments) != 2:
        print(__doc__)
        return 2
    try:
        path = program_path(arguments[0])
        found = vectors(Path(arguments[1]))
    except (ProgramFault, OSError) as fault:
        print(f"FAILED: {fault}")
        return 1
    faults = list(differences(path, found))
    for fault in faults:
        print(fault)
    refused = sum(vector.answer != "accepted" for vector in found)
    print(f"{len(found)} vectors, {len(found) - refused} accepted, {refused} refused, "
          f"{len(faults)} differences")
    if faults or not found:
        print("FAILED")
        return 1
    print("passed")
    return 0


if __name__ == "__main__":
    sys.exit(main(sys.argv[1:]))
