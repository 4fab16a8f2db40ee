"""Times each call of the library, and prints how the time grows with the river.

    python3 bench/calls.py [--archive crates/yumbaqel/out/libyumbaqel.a] [--runs 5]

bench/calls.c makes the calls; the best of all runs counts. The first column is the largest river without flow rows: 1,024 segments, 64
reaches, 256 rows, 32 gauges; the second one has 64 flow rows too, and its step is one with two sets; the third has 32 bands in each reach
too, over which its flows are spread. The others are a small river, and what one segment, reach, row, gauge or flow row more adds to it,
each measured from the small river to that many. pool_moving is an opening that moves another river, which has the rest of the shared lists;
search is one where none of the river is above the limit, search_last one where its last segment alone is; forecast is one of the present
step alone, which has the sheet's tests, the copies and the present flow's set in it. The last lines are 10,000 steps of 1,024 segments by
step calls and inside one forecast, in turn, where the lists stand behind one another and where they stand a cache line apart.
"""
from __future__ import annotations

import argparse
import subprocess
import sys
import tempfile
from pathlib import Path
from typing import NamedTuple

from speed import ROOT, Band, compiled, packed


class Size(NamedTuple):
    segments: int = 32
    reaches: int = 1
    rows: int = 1
    gauges: int = 1
    flow_rows: int = 0
    bands: int = 0                  # of each reach; only beside flow rows


LARGEST = Size(1024, 64, 256, 32)
LARGEST_WITH_FLOWS = LARGEST._replace(flow_rows=64)
LARGEST_WITH_BANDS = LARGEST_WITH_FLOWS._replace(bands=32)
LONGEST_SHEET = 48_040
HIGHEST_FLOW = 100_000_000
AHEAD = 10_000                      # steps of a forecast, as calls.c has them
SMALL = Size()
GROWN = {"segment": SMALL._replace(segments=1024), "reach": SMALL._replace(reaches=32), "row": SMALL._replace(rows=256),
         "gauge": SMALL._replace(gauges=32), "flow row": SMALL._replace(flow_rows=64)}


def bands(count: int) -> list[Band]:
    """So many, from 50,000 mL/s at the top to 82,000 in the last flow row, in rising order."""
    lows = [0, *(50_000 + 32_000 * at // count for at in range(1, count))]
    highs = [*(low - 1 for low in lows[1:]), HIGHEST_FLOW]
    return [(low, high, 10_000 + 10 * at, 1_200 + at, 5_000 + at) for at, (low, high) in enumerate(zip(lows, highs))]


def sheet(size: Size, steps: int = 1_000) -> bytes:
    """A river of this size with every rate at work."""
    each, over = divmod(size.segments, size.reaches)
    lengths = [each + (at < over) for at in range(size.reaches)]
    return packed(steps, steps, lengths, [(at, 1_000 * at) for at in range(size.rows)], list(range(1, size.gauges + 1)),
                  [(at, 50_000 + 500 * at) for at in range(1, size.flow_rows + 1)], bands=bands(size.bands) if size.bands else [])


def timed(program: Path, size: Size, runs: int) -> dict[str, float]:
    """The best time of each call, in ns."""
    best: dict[str, float] = {}
    for _ in range(runs):
        ran = subprocess.run([program], input=sheet(size), stdout=subprocess.PIPE, check=True)
        for line in ran.stdout.decode().splitlines():
            name, took = line.split()
            best[name] = min(best.get(name, float("inf")), float(took))
    return best


def print_ahead(what: str, program: Path, runs: int) -> None:
    """The best times of as many steps by step calls and inside a forecast, and their ratio."""
    found = [subprocess.run([program, "ahead"], input=sheet(LARGEST, AHEAD), stdout=subprocess.PIPE, check=True).stdout.decode()
             for _ in range(runs)]
    calls, inside = (min(float(text.splitlines()[line].split()[1]) for text in found) for line in (0, 1))
    print(f"{what:<30}{calls * AHEAD / 1e6:>10,.0f} ms by step calls{inside * AHEAD / 1e6:>10,.0f} ms inside a forecast, "
          f"{inside / calls:.2f} of them")


def main() -> None:
    words = argparse.ArgumentParser(description=__doc__.splitlines()[0])
    words.add_argument("--archive", type=Path, default=ROOT / "crates/yumbaqel/out/libyumbaqel.a")
    words.add_argument("--runs", type=int, default=5)
    given = words.parse_args()
    if len(sheet(LARGEST_WITH_BANDS)) != LONGEST_SHEET:
        sys.exit("the largest sheet is not the longest")
    with tempfile.TemporaryDirectory() as name:
        program = compiled(Path(name), "calls.c", str(given.archive))
        largest, flows, banded, small = (timed(program, size, given.runs)
                                         for size in (LARGEST, LARGEST_WITH_FLOWS, LARGEST_WITH_BANDS, SMALL))
        grown = {what: timed(program, size, given.runs) for what, size in GROWN.items()}
        apart = compiled(Path(name), "calls.c", "-DAPART", str(given.archive), name="apart")
        print(f"{'ns':<18}{'largest':>12}{'64 flow rows':>14}{'32 bands':>14}{'small':>10}" + "".join(f"{'per ' + what:>14}" for what in GROWN))
        for call, took in largest.items():
            line = f"{call:<18}{took:>12,.0f}{flows[call]:>14,.0f}{banded[call]:>14,.0f}{small[call]:>10,.0f}"
            for what, size in GROWN.items():
                more = max(here - there for here, there in zip(size, SMALL))
                line += f"{(grown[what][call] - small[call]) / more:>14.1f}"
            print(line)
        print(f"{AHEAD:,} steps of {LARGEST.segments:,} segments")
        print_ahead("the lists behind one another", program, given.runs)
        print_ahead("the lists a cache line apart", apart, given.runs)


if __name__ == "__main__":
    main()
