"""Times each call of the library of a commit and of the library as it is built now, and prints the ratio, after / before.

    python3 bench/before_after.py [--before COMMIT] [--archive crates/yumbaqel/out/libyumbaqel.a] [--runs 5]

The library of the commit comes out of git's history: its files are put into a folder for temporary files, and proved and built there, which
takes some minutes the first time. A commit that was written for an older Rattle needs that one: the command says where. Each library has
the bench/calls.c and the header of its own tree. Both get the largest sheet, without flow rows, with 64, and with 32 bands in each reach
too, in turn; the best of the runs counts. Where the commit's library has no bands, that sheet is put to the library of now alone. By default
the commit is one whose rounding of a fraction took thirty turns (document 02, 4).
"""
from __future__ import annotations

import argparse
import subprocess
import sys
import tempfile
from pathlib import Path

from calls import LARGEST, LARGEST_WITH_BANDS, LARGEST_WITH_FLOWS, Size, timed
from speed import ROOT, compiled

THIRTY_TURNS = "967e8681adc3fc0e70f3ce5438d9771bd24f6154"
ARCHIVE = Path("crates/yumbaqel/out/libyumbaqel.a")
OLD_ARCHIVE = Path("target/staticlib/libyumbaqel.a")        # where the older Rattle puts it
SIZES = {"largest": LARGEST, "largest, 64 flow rows": LARGEST_WITH_FLOWS, "largest, 32 bands": LARGEST_WITH_BANDS}


def hash_of(commit: str) -> str:
    """The whole hash of a commit of this repository."""
    asked = subprocess.run(["git", "rev-parse", "--verify", f"{commit}^{{commit}}"], cwd=ROOT, stdout=subprocess.PIPE)
    if asked.returncode:
        sys.exit(f"{commit} is not in this repository's history")
    return asked.stdout.decode().strip()


def built(commit: str) -> tuple[Path, Path]:
    """The tree of the commit, and its library."""
    tree = Path(tempfile.gettempdir()) / "yumbaqel-before" / hash_of(commit)
    if not tree.exists():
        tree.mkdir(parents=True)
        packed = subprocess.run(["git", "archive", commit], cwd=ROOT, stdout=subprocess.PIPE, check=True).stdout
        subprocess.run(["tar", "-x"], cwd=tree, input=packed, check=True)
    if (tree / OLD_ARCHIVE).exists():
        return tree, tree / OLD_ARCHIVE
    if not (tree / ARCHIVE).exists():
        if "yumbaqel staticlib:" not in (tree / "crates.txt").read_text():
            sys.exit(f"{commit} was written for an older Rattle: build its library with that one, by `rt staticlib yumbaqel` in {tree}")
        subprocess.run(["rt", "lib"], cwd=tree / "crates" / "yumbaqel", stdout=sys.stderr, check=True)
    return tree, tree / ARCHIVE


def knows_bands(tree: Path) -> bool:
    """The tree's library takes sheets with bands."""
    return "YUMBAQEL_MOST_BANDS" in (tree / "include" / "yumbaqel.h").read_text()


def in_turn(programs: list[Path], size: Size, runs: int) -> list[dict[str, float]]:
    """The best time of each call in ns, for each of the programs."""
    best: list[dict[str, float]] = [{} for _ in programs]
    for _ in range(runs):
        for so_far, program in zip(best, programs):
            for call, took in timed(program, size, 1).items():
                so_far[call] = min(so_far.get(call, took), took)
    return best


def main() -> None:
    words = argparse.ArgumentParser(description=__doc__.splitlines()[0])
    words.add_argument("--before", default=THIRTY_TURNS, metavar="COMMIT")
    words.add_argument("--archive", type=Path, default=ROOT / ARCHIVE)
    words.add_argument("--runs", type=int, default=5)
    given = words.parse_args()
    if not given.archive.exists():
        sys.exit(f"there is no {given.archive}: `rt lib` in crates/yumbaqel builds it")
    tree, archive = built(given.before)
    with tempfile.TemporaryDirectory() as name:
        folders = [Path(name) / part for part in ("before", "after")]
        for folder in folders:
            folder.mkdir()
        programs = [compiled(folders[0], "calls.c", str(archive), tree=tree),
                    compiled(folders[1], "calls.c", str(given.archive))]
        for title, size in SIZES.items():
            if size.bands and not knows_bands(tree):
                after, = in_turn(programs[1:], size, given.runs)
                print(f"{title + ', ns':<28}{'':>14}{'after':>14}")
                for call, took in after.items():
                    print(f"{call:<28}{'':>14}{took:>14,.1f}")
                continue
            before, after = in_turn(programs, size, given.runs)
            print(f"{title + ', ns':<28}{'before':>14}{'after':>14}{'ratio':>8}")
            for call in after:
                if call in before:
                    print(f"{call:<28}{before[call]:>14,.1f}{after[call]:>14,.1f}{after[call] / before[call]:>8.2f}")


if __name__ == "__main__":
    main()
