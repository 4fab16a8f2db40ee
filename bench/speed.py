"""Times program `river` beside the same job written in C, in whole numbers and in double precision, and prints the ratios.

    python3 bench/speed.py [--river crates/river/out/river] [--archive crates/yumbaqel/out/libyumbaqel.a] [--runs 15]

bench/otis.h has the documents' arithmetic in C with its eight divisions, bench/river.c the program with it, whose lists stand behind one
another or a cache line apart, as those of river do; bench/double.c is the program in double precision, whose coefficients are worked out
once, with one division for each segment and step or none. gcc -O3 compiles them. All programs get the same sheets and run in turn; the best
of the runs counts. river and its twin in C must print the same bytes; what double precision prints must lie within 6 ng/L a step of that,
Kd times as far for sediment. The second table shows how the time of a step grows with the segments. The step alone is timed by
bench/steps.c, which calls the library's step and the one in C on the same lists: with one set on both sides and with two, where the lists
stand behind one another and where they stand apart.
"""
from __future__ import annotations

import argparse
import struct
import subprocess
import sys
import tempfile
import time
from pathlib import Path

ROOT = Path(__file__).resolve().parent.parent

# A reach in the sheet's order, with every rate at work.
ALL_RATES = {"D": 1_200, "A": 10_000, "AS": 5_000, "ALPHA": 100_000, "qin": 200, "qout": 100, "CL": 5_000_000, "LAMBDA": 20_000,
             "LAMBDA2": 30_000, "LAMHAT": 50_000, "LAMHAT2": 40_000, "RHO": 40_000, "Kd": 70, "CB": 1_000_000, "start": 2_000_000}

# The fields of a river of plain transport that are not 0, and what storage and sorption add to them. AS may not be 0.
PLAIN = {"D", "A", "AS", "qin", "qout", "CL", "start"}
STORAGE = PLAIN | {"ALPHA"}
SORPTION = STORAGE | {"LAMHAT", "LAMHAT2", "RHO", "Kd", "CB"}

# How far double precision may lie from river for each step, in ng/L: demand 3's bound.
EACH_STEP = 6


Band = tuple[int, int, int, int, int]       # lowest and highest flow, A, D and AS


def packed(steps: int, interval: int, lengths: list[int], rows: list[tuple[int, int]], gauges: list[int],
           flow_rows: list[tuple[int, int]], at_work: set[str] = set(ALL_RATES), bands: list[Band] = []) -> bytes:
    """Reaches of so many 1 m segments each, with these rates at work and the others 0; marked OTR2 where there are flow rows, OTR3 where
    each reach has these bands too."""
    rates = [rate if name in at_work else 0 for name, rate in ALL_RATES.items()]
    words = [2, 100, steps, interval, 50_000, len(lengths), *(field for length in lengths for field in (length, *rates)),
             len(rows), *(field for row in rows for field in row), len(gauges), *gauges]
    if flow_rows:
        words += [len(flow_rows), *(field for row in flow_rows for field in row)]
    if bands:
        words += [len(bands), *(field for band in bands for field in band)] * len(lengths)
    return (b"OTR3" if bands else b"OTR2" if flow_rows else b"OTR1") + struct.pack(f"<{len(words)}I", *words)


def sheet(segments: int, steps: int, interval: int, flow_rows: int = 0, at_work: set[str] = set(ALL_RATES)) -> bytes:
    """One reach, a pulse upstream, gauges at the quarters; so many flow rows, with flows that rise and fall."""
    rows = [(0, 3_000_000), (steps // 10, 100_000_000), (steps // 2, 3_000_000)]
    gauges = sorted({max(1, segments * quarter // 4) for quarter in (1, 2, 3, 4)})
    flows = [(1 + at * steps // flow_rows, 90_000 if at % 2 else 70_000) for at in range(flow_rows)]
    return packed(steps, interval, [segments], rows, gauges, flows, at_work)


def seconds(program: Path, given: bytes) -> tuple[float, bytes]:
    """The time of one run, and what it printed."""
    begun = time.perf_counter()
    ran = subprocess.run([program], input=given, stdout=subprocess.PIPE, check=True)
    return time.perf_counter() - begun, ran.stdout


def in_turn(programs: list[Path], given: bytes, runs: int) -> tuple[list[float], list[bytes]]:
    """The best times of all programs, run in turn, and what they printed."""
    best = [float("inf")] * len(programs)
    for _ in range(runs):
        printed = []
        for at, program in enumerate(programs):
            took, text = seconds(program, given)
            best[at] = min(best[at], took)
            printed.append(text)
    return best, printed


def near(listing: bytes, other: bytes) -> bool:
    """The lines of two listings are of the same steps and segments, and their figures no further apart than demand 3 allows."""
    lines, others = (text.decode().splitlines()[1:-1] for text in (listing, other))
    for line, beside in zip(lines, others, strict=True):
        step, segment, *figures = map(int, line.split())
        step2, segment2, *figures2 = map(int, beside.split())
        most = EACH_STEP * step
        limits = (most, most, most * ALL_RATES["Kd"])
        if (step, segment) != (step2, segment2) or any(abs(x - y) > limit for x, y, limit in zip(figures, figures2, limits)):
            return False
    return True


def compiled(folder: Path, source: str, *more: str, tree: Path = ROOT, name: str = "") -> Path:
    program = folder / (name or Path(source).stem)
    subprocess.run(["gcc", "-O3", "-I", tree / "include", "-o", program, tree / "bench" / source, *more], check=True)
    return program


def segment_steps(given: bytes) -> int:
    """Segments times steps of a sheet."""
    count = struct.unpack_from("<I", given, 24)[0]
    return struct.unpack_from("<I", given, 12)[0] * sum(struct.unpack_from("<I", given, 28 + 64 * i)[0] for i in range(count))


def main() -> None:
    words = argparse.ArgumentParser(description=__doc__.splitlines()[0])
    words.add_argument("--river", type=Path, default=ROOT / "crates/river/out/river")
    words.add_argument("--archive", type=Path, default=ROOT / "crates/yumbaqel/out/libyumbaqel.a")
    words.add_argument("--runs", type=int, default=15)
    given = words.parse_args()

    with tempfile.TemporaryDirectory() as name:
        folder = Path(name)
        whole = [given.river, compiled(folder, "river.c"), compiled(folder, "river.c", "-DAPART", name="apart")]
        double = [compiled(folder, "double.c"), compiled(folder, "double.c", "-DRECIPROCALS", name="reciprocals")]
        uvas = (ROOT / "examples/uvas-chloride.otr").read_bytes()
        rates = {"plain transport": PLAIN, "with storage": STORAGE, "with storage and sorption": SORPTION, "with all rates": set(ALL_RATES)}
        jobs = {"Uvas Creek, chloride": uvas} | {job: sheet(1024, 10_000, 100, at_work=at_work) for job, at_work in rates.items()}
        flows = sheet(1024, 10_000, 100, 4)
        print("ns for each segment and step\n")
        print(f"{'job':<28}{'river':>9}" + "".join(f"{other:>16}" for other in ("C", "C, apart", "double", "reciprocals")))
        for job, bytes_in in (jobs | {"the same with 4 flow rows": flows}).items():
            took, printed = in_turn(whole if bytes_in == flows else whole + double, bytes_in, given.runs)
            if len(set(printed[:3])) > 1 or printed[0].startswith(b"refused"):
                sys.exit("river and its twin in C do not print the same listing")
            if not all(near(printed[0], text) for text in printed[3:]):
                sys.exit("double precision lies too far from river")
            ours, *others = (best / segment_steps(bytes_in) * 1e9 for best in took)
            print(f"{job:<28}{ours:>9.1f}" + "".join(f"{other:>9.1f} ({ours / other:.2f})" for other in others), flush=True)
        print("in brackets: river's time over it")
        print("\nsegments   ns for each segment and step (river)")
        for segments in (64, 128, 256, 512, 1024):
            bytes_in = sheet(segments, 1_024_000 // segments, 1_024_000 // segments)
            took, _ = in_turn([given.river], bytes_in, given.runs)
            print(f"{segments:>8}   {took[0] / segment_steps(bytes_in) * 1e9:.1f}")
        if given.archive.exists():
            for title, options in {"the lists behind one another": [], "the lists a cache line apart": ["-DAPART"]}.items():
                print(f"\nthe step alone, {title}")
                steps = compiled(folder, "steps.c", *options, str(given.archive))
                print(subprocess.run([steps], input=flows, stdout=subprocess.PIPE, check=True).stdout.decode(), end="")


if __name__ == "__main__":
    main()
