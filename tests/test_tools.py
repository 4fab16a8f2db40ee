"""Tests the tools: the text of a sheet, explanations, curves, what is shown of a proof, and the examples.

    python3 tests/test_tools.py [PATH_TO_RIVER] [--full]

Without a path crates/river/out/river is run where it is there; what needs the program is else left out, and said so.
--full also runs the program over the whole examples and compares with their stored listings and pictures.
The exit status is 0 only when every check holds.
"""
from __future__ import annotations

import argparse
import io
import os
import pty
import random
import re
import signal
import subprocess
import sys
import tempfile
import time
from collections.abc import Callable, Iterator
from dataclasses import replace
from fractions import Fraction
from itertools import accumulate, islice
from pathlib import Path
from typing import Any, NamedTuple
from xml.etree import ElementTree

import float_river
import model
import sheets
import snowmelt
import texts
import uvas
import weir
from model import HIGHEST_FLOW, Band, FlowRow, Header, Reach, Row
from program import ProgramFault, first_difference, printed, program_path
from sheets import (BROOK_REACH, Draft, brook, draw_band_river, draw_flow_river, draw_river, plain, plain_bands, plain_flows,
                    still_reaches, write)

import command                      # the tools' folder is on the path since `model` was imported
import curves
import explain
import prove
import sheet_text
import units

ROOT = Path(__file__).resolve().parent.parent
EXAMPLES = ROOT / "examples"
SHEET, CURVES, PROVE, GATE_COST = (ROOT / "tools" / name
                                   for name in ("sheet.py", "curves.py", "prove.py", "gate_cost.py"))
FLOAT_RIVER = ROOT / "tests" / "float_river.py"
RIVER = ROOT / "crates" / "river" / "out" / "river"
MOST_SHOWN = 10
DRAFTS = uvas.EXAMPLES | snowmelt.EXAMPLES | weir.EXAMPLES      # what the examples must hold
SVG = "{http://www.w3.org/2000/svg}"


class Check(NamedTuple):
    name: str
    found: Any
    wanted: Any


def tool(*arguments: object, given: bytes = b"", encoding: str = "utf-8", **options: Any
         ) -> subprocess.CompletedProcess:
    """Runs one of the tools as a user does, at a terminal with this encoding."""
    options = dict(stdout=subprocess.PIPE, stderr=subprocess.PIPE, env=os.environ) | options
    options["env"] = options["env"] | {"PYTHONIOENCODING": encoding, "PYTHONUNBUFFERED": ""}
    return subprocess.run([sys.executable, *map(str, arguments)], input=given, timeout=60, **options)


def without(stream: int, *arguments: object) -> subprocess.CompletedProcess:
    """Runs a tool with one of its standard streams closed."""
    return tool(*arguments, preexec_fn=lambda: os.close(stream))


def closed_pipe(*arguments: object, **options: Any) -> tuple[int, bytes]:
    """Runs a tool into a pipe that nobody reads: its exit status, and what it says of that."""
    reading, writing = os.pipe()
    os.close(reading)
    try:
        ran = tool(*arguments, stdout=writing, **options)
    finally:
        os.close(writing)
    return ran.returncode, ran.stderr


# Units

KNOWN_FIGURES = (
    (units.FLOW, "12.5", "L/s", 12_500), (units.FLOW, "0.0125", "m^3/s", 12_500),
    (units.FLOW, "45", "m3/h", 12_500), (units.AREA, "0.30", "m²", 3_000),
    (units.DISPERSION, "0.12", "m2/s", 1_200), (units.LENGTH, "1", "m", 100), (units.TIME, "0.15", "hours", 540),
    (units.RATE, "5.6e-5", "/s", 56_000), (units.RATE, "36", "1/h", 10_000_000),
    (units.LATERAL_FLOW, "4.545e-6", "m3/s/m", 4_545), (units.LATERAL_FLOW, "4.545", "L/s/km", 4_545),
    (units.CONCENTRATION, "11.4", "mg/l", 11_400_000), (units.CONCENTRATION, "130", "µg/L", 130_000),
    (units.CONCENTRATION, "0.13", "g/m3", 130_000), (units.SEDIMENT, "40", "kg/m3", 40_000),
    (units.DISTRIBUTION, "70e-6", "m3/g", 70), (units.DISTRIBUTION, "70", "mL/g", 70),
    (units.DISTRIBUTION, "0.07", "m3/kg", 70), (units.DISTRIBUTION, "70", "L/kg", 70),
    (units.LENGTH, "25", "ft", 762), (units.LENGTH, "12.5", "feet", 381), (units.LENGTH, "1.25", "mi", 201_168),
    (units.AREA, "625", "ft²", 580_644), (units.DISPERSION, "625", "ft^2/s", 580_644),
    (units.FLOW, "15625", "ft3/s", 442_450_728), (units.FLOW, "15625", "cfs", 442_450_728),
    (units.LATERAL_FLOW, "1", "ft3/s/ft", 92_903_040), (units.LATERAL_FLOW, "5280", "ft3/s/mi", 92_903_040),
)


def unit_checks() -> Iterator[Check]:
    for kind, text, unit, figure in KNOWN_FIGURES:
        yield Check(f"{text} {unit}", units.number(text) * kind.factor(unit), figure)
    rng = random.Random("units")
    kinds = [*units.REACH_KINDS.values(), *units.HEADER_KINDS.values(), *units.BAND_KINDS.values()]
    for _ in range(200):
        kind, figure = rng.choice(kinds), rng.choice((rng.randrange(2 ** 32), rng.randrange(2_000)))
        for unit in kind.shown:
            text = units.in_unit(figure, kind, unit)
            yield Check(f"{figure} as {text} {unit}", units.number(text) * kind.factor(unit), Fraction(figure))
    ranges = model.REACH_RANGES | model.header_ranges(model.MOST_STEPS)
    for name, kind in (units.REACH_KINDS | units.HEADER_KINDS).items():
        for unit, size in kind.units.items():
            low, high = ranges[name]
            least, most = re.findall(r"[\d.e-]+(?= )", units.span(low, high, units.Unit(unit, size)))
            ends = units.number(least) * size - low, high - units.number(most) * size
            yield Check(f"{name} in {unit}: inside its range, and near its ends",
                        all(0 <= end <= Fraction(figure, 10 ** 8) for end, figure in zip(ends, (low, high))), True)


# The text of a sheet


def any_fields(rng: random.Random) -> bytes:
    """A sheet that passes tests 1 to 4, its fields drawn from all that 32 bits hold."""
    def figures(count: int) -> list[int]:
        return [rng.choice((0, 1, rng.randrange(100), rng.randrange(2 ** 32), 2 ** 32 - 1)) for _ in range(count)]

    reaches, rows = rng.choice((1, 2, 5, model.MOST_REACHES)), rng.choice((1, 3, 9, model.MOST_ROWS))
    gauges, flows = rng.choice((1, 5, model.MOST_GAUGES)), rng.choice((0, 1, 3, model.MOST_FLOW_ROWS))
    draft = Draft(Header(*figures(len(Header._fields))),
                  [Reach(*figures(len(Reach._fields))) for _ in range(reaches)],
                  [Row(*figures(len(Row._fields))) for _ in range(rows)], figures(gauges))
    if flows:
        draft = draft.with_flows(*(figures(len(FlowRow._fields)) for _ in range(flows)))
    if flows and rng.random() < 0.7:
        def bands() -> list[Band]:
            most = rng.choice((0, 0, 1, 3, model.MOST_BANDS))
            return [rng.choice((Band(*figures(5)), Band(0, HIGHEST_FLOW, *figures(3)))) for _ in range(most)]

        alike = bands() if rng.random() < 0.2 else None
        draft = draft.with_bands(*(bands() if alike is None else alike for _ in range(reaches)))
    return write(draft)


def sheets_that_pass_4(rng: random.Random) -> Iterator[bytes]:
    """Sheets of every kind that have their mark, counts and length right."""
    groups = (sheets.bench_cases(), sheets.extreme_rivers(), islice(sheets.end_of_range_sheets(plain()), 0, None, 2),
              sheets.disordered_sheets(plain()), sheets.unsifted_rivers(rng, 60), sheets.changed_sheets(rng, 60),
              sheets.flow_rivers(), sheets.flow_fault_cases(), sheets.disordered_flows(plain_flows()),
              sheets.unsifted_rivers(rng, 60, draw_flow_river), sheets.band_rivers(), sheets.band_fault_cases(),
              sheets.band_flow_cases(), islice(sheets.end_of_range_sheets(plain_bands()), 0, None, 8),
              sheets.unsifted_rivers(rng, 30, draw_band_river))
    made = [*(write(sheets.good_river(rng, rng.randint(1, 40), rng.randint(1, 30), draw))
              for draw in [draw_river] * 60 + [draw_flow_river] * 30 + [draw_band_river] * 20),
            *(any_fields(rng) for _ in range(40)), write(sheets.fullest_flows(rng)), write(sheets.fullest(rng)),
            *(case.sheet for cases in groups for case in cases)]
    for sheet in made:
        refusal = model.answer(sheet)
        if refusal is None or refusal.number > 4:
            yield sheet


def round_trip_checks() -> Iterator[Check]:
    """make(read(x)) is x, and a mistake is found just where document 01 refuses."""
    seen = {mark: 0 for mark in model.MARKS}
    for sheet in sheets_that_pass_4(random.Random("round trips")):
        seen[sheet[:4]] += 1
        made = sheet_text.make(sheet_text.read(sheet))
        refusal = model.answer(sheet)
        yield Check("bytes again", made.sheet == sheet, True)
        yield Check("refused or not", {mistake.number for mistake in made.mistakes},
                    {refusal.number} if refusal else set())
        yield Check("nothing rounded", made.rounded, [])
    yield Check("sheets enough", [count > least for count, least in zip(seen.values(), (400, 200, 300))], [True] * 3)
    one_row = sheet_text.read(sheet_text.make(texts.ALL_BANDS).sheet)
    yield Check("what read shows of bands", one_row.split("\n\n")[-2:], [
        "flow  step  top\nunit  -     L/s\n1     1     20   # 0.00277778 h",
        "band  reach  lowest  highest  A    D     AS\nunit  -      mL/s    mL/s     m2   m2/s  m2\n"
        "1     all    0       20099    0.9  0.6   0.18\n2     all    20100   max      1.4  0.7   0.25\n"])


def command_checks() -> Iterator[Check]:
    """The three commands, with files and with standard input and output."""
    with tempfile.TemporaryDirectory() as folder:
        sheet, text, again = (Path(folder) / name for name in ("a.otr", "a.txt", "b.otr"))
        sheet.write_bytes(write(plain()))
        yield Check("read", tool(SHEET, "read", sheet, "-o", text).returncode, 0)
        yield Check("make", tool(SHEET, "make", text, "-o", again).returncode, 0)
        yield Check("the same file", again.read_bytes(), sheet.read_bytes())
        flows = tool(SHEET, "make", "-", "-o", "-", given=texts.FLOW_TEXT.encode())
        yield Check("make, flow rows", (flows.returncode, flows.stdout[:4], flows.stderr), (0, b"OTR2", b""))
        back = tool(SHEET, "read", "-", given=flows.stdout)
        yield Check("read, flow rows", tool(SHEET, "make", "-", "-o", "-", given=back.stdout).stdout, flows.stdout)
        bands = tool(SHEET, "make", "-", "-o", "-", given=texts.BAND_TEXT.encode())
        yield Check("make, bands", (bands.returncode, bands.stdout[:4], bands.stderr), (0, b"OTR3", b""))
        back = tool(SHEET, "read", "-", given=bands.stdout)
        yield Check("read, bands", tool(SHEET, "make", "-", "-o", "-", given=back.stdout).stdout, bands.stdout)
        piped = tool(SHEET, "make", "-", "-o", "-", given=text.read_bytes())
        yield Check("make, piped", piped.stdout, sheet.read_bytes())
        said = tool(SHEET, "explain", sheet)
        yield Check("explain", (said.returncode, said.stdout.split(b"\n")[0]), (0, b"accepted"))
        said = tool(SHEET, "explain", sheet, encoding="ascii")
        yield Check("explain, a plain terminal", (said.returncode, b"test 11: Q ? dx" in said.stdout), (0, True))
        again.unlink()
        wrong = text.read_bytes().replace(b"step            10 s", b"step            0 s")
        refused = tool(SHEET, "make", "-", "-o", again, given=wrong)
        yield Check("make, refused", (refused.returncode, again.exists()), (1, False))
        yield Check("its line", refused.stderr.startswith(b"-, line 1: the step dt is 0 s"), True)
        forced = tool(SHEET, "make", "--even-refused", "-", "-o", again, given=wrong)
        yield Check("make, even refused", (forced.returncode, again.read_bytes()[4:8]), (0, bytes(4)))
        said = tool(SHEET, "explain", again)
        yield Check("explain, refused", (said.returncode, said.stdout.split(b"\n")[0]), (1, b"refused 5"))
        cut = tool(SHEET, "read", "-", given=sheet.read_bytes()[:-1])
        yield Check("read, cut short", (cut.returncode, cut.stderr.split(b"\n")[0]), (1, b"refused 2"))
        mark = b"\xef\xbb\xbf"                              # a byte order mark
        marked = tool(SHEET, "make", "-", "-o", "-", given=mark + text.read_bytes())
        yield Check("make, a byte order mark", (marked.returncode, marked.stdout), (0, sheet.read_bytes()))
        for given, at in ((b"step \xff", 5), (mark + b"step \xff", 8)):
            ran = tool(SHEET, "make", "-", "-o", again, given=given)
            yield Check("not UTF-8", (ran.returncode, ran.stderr),
                        (1, f"-: not a text in UTF-8 (byte {at})\n".encode()))


def file_checks() -> Iterator[Check]:
    """What is missing or cannot be read or written ends in one line; a closed pipe in none."""
    with tempfile.TemporaryDirectory() as name:
        folder = Path(name)
        sheet, text, listing, none = (folder / each for each in ("a.otr", "a.txt", "a.listing", "none"))
        sheet.write_bytes(write(plain()))
        text.write_text(sheet_text.read(sheet.read_bytes()), encoding="utf-8")
        listing.write_bytes(model.listing(sheet.read_bytes()))
        show = (CURVES, listing, "--sheet", sheet)
        missing, directory = "No such file or directory", "Is a directory"
        for path, words, *arguments in (
                (none, missing, SHEET, "make", none, "-o", folder / "b.otr"), (none, missing, SHEET, "read", none),
                (none, missing, SHEET, "explain", none), (none, missing, CURVES, none, "--dt", 2),
                (none, missing, CURVES, listing, "--sheet", none), (folder, directory, SHEET, "explain", folder),
                (folder, directory, CURVES, listing, "--sheet", folder),
                (none / "b", missing, SHEET, "make", text, "-o", none / "b"),
                (none / "b", missing, *show, "-o", none / "b"), (none, missing, GATE_COST, none),
                (none, missing, FLOAT_RIVER, none, listing), (none, missing, FLOAT_RIVER, sheet, none)):
            ran = tool(*arguments)
            yield Check(f"{arguments}: in one line", (ran.returncode, ran.stdout, ran.stderr.decode()),
                        (1, b"", f"{path}: {words}\n"))
        ran = tool(CURVES, "--dt", 2, given=b"\xff")
        yield Check("a listing that is not UTF-8", (ran.returncode, ran.stderr),
                    (1, b"-: not a text in UTF-8 (byte 0)\n"))
        marked = tool(CURVES, "--sheet", sheet, given=b"\xef\xbb\xbf" + listing.read_bytes())
        yield Check("a listing with a byte order mark", (marked.returncode, marked.stdout),
                    (0, tool(*show).stdout))
        for arguments in ((SHEET, "make", text, "-o", "-"), (SHEET, "read", sheet), (SHEET, "explain", sheet),
                          show):
            yield Check(f"{arguments}: a closed pipe", closed_pipe(*arguments), (command.CLOSED_PIPE, b""))
        with open("/dev/full", "wb") as full:
            ran = tool(*show, stdout=full)
        yield Check("a full disk", (ran.returncode, ran.stderr), (1, b"standard output: No space left on device\n"))
        yield from stream_checks(sheet, text, listing)


def stream_checks(sheet: Path, text: Path, listing: Path) -> Iterator[Check]:
    """A disk that is full, streams that are closed, and - for a file."""
    full, picture = Path("/dev/full"), sheet.with_suffix(".svg")
    show = (CURVES, listing, "--sheet", sheet)
    for arguments in ((SHEET, "make", text), (SHEET, "read", sheet), show):
        ran = tool(*arguments, "-o", full)
        yield Check(f"{arguments}: a full disk", (ran.returncode, ran.stdout, ran.stderr),
                    (1, b"", b"/dev/full: No space left on device\n"))
        with open(full, "wb") as out:
            ran = tool(*arguments, "-o", "-", stdout=out)
        yield Check(f"{arguments}: a full disk, -", (ran.returncode, ran.stderr),
                    (1, b"standard output: No space left on device\n"))
        ran = without(1, *arguments, "-o", "-")
        yield Check(f"{arguments}: no standard output", (ran.returncode, ran.stderr),
                    (1, b"standard output: Bad file descriptor\n"))
    for arguments in ((SHEET, "explain", sheet), show, (*show, "-o", picture)):
        for stream in (1, 2):
            ran = without(stream, *arguments)
            yield Check(f"{arguments}: without stream {stream}", (ran.returncode, ran.stderr), (0, b""))
    missing = (SHEET, "read", sheet.with_name("none"))
    ran = without(2, *missing)
    yield Check("no standard error", (ran.returncode, ran.stdout), (1, b""))
    with open(full, "wb") as out:
        yield Check("standard error on a full disk", tool(*missing, stderr=out).returncode, 1)
    ran = without(0, SHEET, "read", "-")
    yield Check("no standard input", (ran.returncode, ran.stderr), (1, b"standard input: Bad file descriptor\n"))
    ran = tool(CURVES, listing, "--sheet", "-", "-o", "-", given=sheet.read_bytes())
    yield Check("curves.py: - for sheet and picture", (ran.returncode, ran.stdout, ran.stderr),
                (0, picture.read_bytes(), b""))
    ran = tool(CURVES, listing, "--sheet", "-", given=sheets.UNKNOWN_MARK)
    yield Check("curves.py: - is no sheet", (ran.returncode, ran.stderr),
                (1, b"standard input is refused 1; tools/sheet.py explain says why\n"))
    ran = tool(CURVES, "--sheet", "-", given=sheet.read_bytes())
    yield Check("curves.py: - twice", (ran.returncode, b"cannot both come from standard input" in ran.stderr),
                (2, True))


def two_plain_reaches() -> Draft:
    """The river of texts.TEXT."""
    draft = plain()
    return replace(draft, reaches=[draft.reaches[0]] * 2, rows=[Row(0, 7_000), Row(2, 900_000)], gauges=[1, 6])


def mistake_checks() -> Iterator[Check]:
    """Each kind of mistake names its line and says what is wrong."""
    good = sheet_text.make(texts.TEXT)
    yield Check("the text itself", (good.mistakes, good.rounded), ([], []))
    yield Check("its sheet", good.sheet, write(two_plain_reaches()))
    flows = write(two_plain_reaches().with_flows((1, 25_000), (4, 8_000)))
    for name, text in (("from", texts.FLOW_TEXT), ("step", texts.OTHER_FLOWS)):
        made = sheet_text.make(text)
        yield Check(f"flow rows by {name}", (made.sheet, made.mistakes, made.rounded), (flows, [], []))
    first = [Band(10_000, 24_999, 9_000, 6_000, 1_800), Band(25_000, HIGHEST_FLOW, 14_000, 7_000, 2_500),
             Band(0, 9_999, 6_000, 4_000, 900)]
    second = [Band(20_100, HIGHEST_FLOW, 11_000, 5_500, 2_100), Band(0, 20_099, 8_000, 6_500, 1_700)]
    banded = two_plain_reaches().with_flows((1, 25_000), (4, 8_000)).with_bands(first, second)
    for name, text in {"in their two forms": texts.BAND_TEXT, **texts.OTHER_BANDS}.items():
        made = sheet_text.make(text)
        yield Check(f"bands: {name}", (made.sheet, made.mistakes, made.rounded), (write(banded), [], []))
    alike = [Band(0, 20_099, 9_000, 6_000, 1_800), Band(20_100, HIGHEST_FLOW, 14_000, 7_000, 2_500)]
    for name, text, tables in (("and no flow rows", texts.TEXT + texts.BANDS, (first, second)),
                               ("of every reach", texts.ALL_BANDS, (alike, alike)), ("none of a reach", texts.NO_BANDS, ())):
        made = sheet_text.make(text)
        wanted = write(two_plain_reaches().with_flows((1, 20_000)).with_bands(*tables))
        yield Check(f"bands: {name}", (made.sheet, made.mistakes, made.rounded), (wanted, [], []))
    feet = sheet_text.make(texts.FEET_BANDS)
    yield Check("bands: feet", [band[:2] for band in model.read_sheet(feet.sheet).bands[0]], [(0, 20_104), (20_105, HIGHEST_FLOW)])
    yield Check("bands: feet, said so", [(note.line, note.words) for note in feet.rounded],
                [(27, "from of band 2 of reach 1 is ~0.71 ft3/s, that is about 20104.9611 mL/s; 20,105 is taken")])
    yield Check("the report's names", sheet_text.make(texts.REPORT_NAMES).sheet, good.sheet)
    yield Check("lengths and times", sheet_text.make(texts.OTHER_WAYS).sheet, good.sheet)
    feet = model.read_sheet(sheet_text.make(texts.FEET).sheet)
    yield Check("feet and miles", (feet.header, feet.reaches[1][:7], feet.gauges),
                (Header(10, 762, 6, 2, 19_822), (3, 5_110, 9_290, 1_858, 1_000_000, 2_991, 880), [1, 6]))
    for text, line, number, words in texts.MISTAKES:
        made = sheet_text.make(text)
        first = made.mistakes[0] if made.mistakes else sheet_text.Mistake(0, "no mistake")
        said = words if words in first.words else first.words
        yield Check(f"mistake: {words}", (first.line, first.number, said), (line, number, words))
    late = sheet_text.make(texts.edited((19, "2 1e12 900")))
    yield Check("a row's start has no range of its own", [mistake.words for mistake in late.mistakes],
                ["from of boundary 2 is 1e12 s: a field holds at most 4,294,967,295 (about 42949672900 s)"])
    beyond = sheet_text.make(texts.edited((35, "1 2 101 1.1 0.55 0.21"), text=texts.BAND_TEXT))
    yield Check("a band beyond the highest flow ends none before it", [mistake.words.split(";")[0] for mistake in beyond.mistakes],
                ["lowest flow of band 1 of reach 2 is 101,000,000 mL/s (101 m3/s)"])
    nearest = sheet_text.make(texts.NEAREST)
    yield Check("to the nearest", model.read_sheet(nearest.sheet).header.top_flow, 20_001)
    yield Check("said so", [(note.line, note.words) for note in nearest.rounded],
                [(5, "flow at top is ~20.0005 L/s, that is 20000.5 mL/s; 20,001 is taken"),
                 (12, "qin of every reach is ~0.5 mL/s/km, that is 0.5 mL/s/km; 1 is taken")])


def any_text_checks() -> Iterator[Check]:
    """Whatever is written, there is a sheet that the model accepts, or a mistake with a line of the text."""
    rng = random.Random("texts")
    for _ in range(700):
        text = texts.any_text(rng)
        made = sheet_text.make(text)
        count = max(1, len(text.splitlines()))
        if made.mistakes:
            yield Check(f"lines of {text!r}", all(1 <= each.line <= count for each in made.mistakes), True)
        else:
            yield Check(f"accepted: {text!r}", model.answer(made.sheet), None)


# Explanations


def refused_sheets() -> Iterator[bytes]:
    """Sheets of every refusal, with places early and late."""
    rng = random.Random("refusals")
    base, flows, bands = plain(), plain_flows(), plain_bands()
    for cases in (sheets.faulty_pairs(base), sheets.cut_sheets(base), sheets.counted_sheets(base),
                  sheets.end_of_range_sheets(base), sheets.disordered_sheets(base), sheets.extreme_rivers(),
                  islice(sheets.marked_sheets(rng, base), 0, None, 9), sheets.unsifted_rivers(rng, 60),
                  sheets.faulty_pairs(flows), sheets.cut_sheets(flows), sheets.counted_sheets(flows),
                  islice(sheets.end_of_range_sheets(flows), 0, None, 3), sheets.disordered_flows(flows),
                  sheets.other_marks(flows), sheets.flow_fault_cases(),
                  sheets.unsifted_rivers(rng, 60, draw_flow_river),
                  sheets.faulty_pairs(bands), sheets.cut_sheets(bands), sheets.counted_sheets(bands),
                  islice(sheets.end_of_range_sheets(bands), 0, None, 3), sheets.band_marks(bands), sheets.band_fault_cases(),
                  sheets.band_flow_cases(), sheets.unsifted_rivers(rng, 60, draw_band_river)):
        for case in cases:
            if model.answer(case.sheet) is not None:
                yield case.sheet


def told_of_sheets() -> Iterator[tuple[bytes, str, tuple[str, ...]]]:
    """Sheets, the first line of their explanation, and what else it must say."""
    base = plain()
    sheet = write(base)
    rows = sheets.offset(base, "row 1 start")
    yield b"OTR4" + sheet[4:], "refused 1", ("starts with b'OTR4', not with OTR1, OTR2 or OTR3",)
    yield b"", "refused 1", ("has 0 bytes",)
    yield sheet[:99], "refused 2", ("ends after 99 bytes, inside dispersion D of reach 2",)
    yield sheet[:rows - 4], "refused 2", ("before the count of boundary rows",)
    yield sheet[:rows + 12], "refused 2", ("before concentration of boundary row 2",)
    yield sheet[:-1], "refused 2", ("inside segment of gauge 3",)
    yield (write(replace(base, rows=base.rows * 90)), "refused 3",
           ("the count of boundary rows is 270", "1 to 256 boundary rows"))
    yield sheet + bytes(5), "refused 4", ("5 bytes follow the last gauge, which ends at byte 264",)
    yield (write(base.with_header(dt=0, dx=9)), "refused 5",
           ("the step dt is 0 s", "1 to 3,600 s", "the segment length dx is 9 cm", "10 to 10,000 cm"))
    yield (write(base.with_reach(1, AS=0).with_reach(2, RHO=1_000_001)), "refused 6, reach 2",
           ("storage area AS of reach 2 is 0 cm2", "1 to 1,000,000 cm2", "sediment RHO of reach 3 is 1,000,001 g/m3",
            "0 to 1,000,000 g/m3"))
    yield write(still_reaches(1_024, 1)), "refused 7", ("1,025 segments together", "1,024")
    yield (write(replace(base, rows=[Row(0, 5), Row(0, 1_000_000_001)])), "refused 8, row 2",
           ("not after row 1, at step 0", "the concentration of boundary row 2 is 1,000,000,001 ng/L"))
    yield (write(replace(base, gauges=[4, 10])), "refused 9, gauge 2",
           ("gauge 2 stands in segment 10", "segments 1 to 9"))
    yield (write(sheets.slope(68, 2)), "refused 10, segment 2",
           ("the flow is -1 mL/s", "raise the flow at the top by 1 mL/s"))
    yield (write(brook(dt=2, Q=1_001)), "refused 11, segment 1",
           ("1,001 × 10 = 10,010 cm4/s", "5,000 + 5,000 = 10,000 cm4/s", "D of at least 51 cm2/s in reach 1"))
    yield (write(brook(dt=3, Q=1_000)), "refused 12, segment 1",
           ("T is 1.5 of one whole, 536,870,912 parts too many (e 1.5, g 0,", "a step of at most 2 s"))
    yield (sheet, "accepted", ("3 reaches, 9 segments of 10 m: 90 m", "6 steps of 10 s", "T is at most",
                               "gauges in segment 1 (10 m)"))
    yield from told_of_flows()
    yield from told_of_bands()


def told_of_flows() -> Iterator[tuple[bytes, str, tuple[str, ...]]]:
    """The same of sheets with flow rows."""
    base = plain_flows()
    sheet, count = write(base), sheets.offset(base, "count of flow rows")
    yield sheet[:count], "refused 2", ("ends after 264 bytes, before the count of flow rows",)
    yield sheet[:count + 9], "refused 2", ("ends after 273 bytes, inside top flow of flow row 1",)
    yield sheet[:-1], "refused 2", ("inside top flow of flow row 3",)
    yield (write(base.with_flows()), "refused 3",
           ("the count of flow rows is 0", "document 02 allows 1 to 64 flow rows"))
    yield sheet + bytes(5), "refused 4", ("5 bytes follow the last flow row, which ends at byte 292", "raise the count of "
                                          "flow rows if they are flow rows; a sheet with bands is marked OTR3")
    yield model.MARK + sheet[4:], "refused 4", ("28 bytes follow the last gauge, which ends at byte 264",
                                                "a sheet with flow rows is marked OTR2")
    yield (write(base.with_flows((0, 5), (7, 5))), "refused 16, flow row 1",
           ("flow row 1 starts at step 0", "a flow row starts at step 1 at the earliest",
            "flow row 2 starts at step 7, after the last step, 6"))
    yield (write(base.with_flows((1, 5), (1, 10 ** 8 + 1))), "refused 16, flow row 2",
           ("flow row 2 starts at step 1, which is not after flow row 1, at step 1",
            "the top flow of flow row 2 is 100,000,001 mL/s", "0 to 100,000,000 mL/s"))
    yield (write(sheets.falling(114, 114, 113)), "refused 10, segment 3",
           ("with flow row 2, from step 2 (0.00555556 h) on, in segment 3 (reach 1) the flow is -1 mL/s",
            "or raise the top flow of flow row 2 by 1 mL/s"))
    yield (write(sheets.falling(113, 114, 113)), "refused 10, segment 3",
           ("  in segment 3 (reach 1) the flow is -1 mL/s", "or raise the flow at the top by 1 mL/s"))
    yield (write(sheets.narrowing(200, 200, 401)), "refused 11, segment 3",
           ("with flow row 2, from step 2 (0.000555556 h) on, in segment 3 (reach 3) Q × dx, 401 × 10 = 4,010 cm4/s,",
            "3,000 + 1,000 = 4,000 cm4/s", "D of at least 31 cm2/s in reach 3"))
    yield (write(sheets.filling(0, 334)), "refused 12, segment 1",
           ("with flow row 1, from step 1 (0.000833333 h) on, in segment 1 (reach 1) T is 1.0005 of one whole",
            "with a step of at most 2 s the whole river passes"))
    yield (sheet, "accepted", (
        "3 flow rows, 3 boundary rows; gauges in segment 1 (10 m)", "of AD own + AD below (segment 9, flow row 3)",
        "  flow         from step          at the top    along the river (10)    Q × dx (11)          T (12)\n",
        "  top flow     0 (0 h)            20,000 mL/s   20,010 to 20,170 mL/s   0.2017 (segment 9)   0.08",
        "  flow row 3   6 (0.0166667 h)    60,000 mL/s   60,010 to 60,170 mL/s   0.6017 (segment 9)   0.08"))


def told_of_bands() -> Iterator[tuple[bytes, str, tuple[str, ...]]]:
    """The same of sheets with bands: three in reach 1, none in reach 2, two in reach 3."""
    base = plain_bands()
    sheet, end = write(base), len(write(base))
    counts = [sheets.offset(base, f"count of bands of reach {reach}") for reach in (1, 2, 3)]
    yield sheet[:counts[0]], "refused 2", ("ends after 292 bytes, before the count of bands of reach 1",)
    yield sheet[:counts[0] + 7], "refused 2", ("ends after 299 bytes, inside lowest flow of band 1 of reach 1",)
    yield sheet[:counts[1]], "refused 2", ("before the count of bands of reach 2",)
    yield sheet[:counts[1] + 6], "refused 2", ("inside the count of bands of reach 3",)
    yield sheet[:-1], "refused 2", ("inside storage area AS of band 2 of reach 3",)
    yield sheet[:-16], "refused 2", ("before highest flow of band 2 of reach 3",)
    yield (sheets.put(sheet, counts[2], 33), "refused 3",
           ("the count of bands of reach 3 is 33", "document 02 allows 0 to 32 bands"))
    yield sheet + bytes(5), "refused 4", (f"5 bytes follow the last band of reach 3, which ends at byte {end}",
                                          "take them off, or raise the count of bands of reach 3 if they are bands")
    yield (write(base.with_table(2, [])) + bytes(3), "refused 4",
           ("3 bytes follow the count of bands of reach 3, 0, which ends at byte",))
    yield (model.FLOW_MARK + sheet[4:], "refused 4", ("follow the last flow row, which ends at byte 292", "is marked OTR3"))
    gap = [Band(0, 9, 1, 1, 1), Band(12, HIGHEST_FLOW, 1, 1, 1)]
    yield (write(base.with_table(1, gap).with_table(2, [Band(0, 5, 1, 1, 1)])), "refused 19, reach 2",
           ("no band of reach 2 holds 10 to 11 mL/s", "end band 1 at 11 mL/s or begin band 2 at 10 mL/s or give 'from' alone",
            "no band of reach 3 holds 6 to 100,000,000 mL/s", "end band 1 at 100,000,000 mL/s or write 'max' in the text"))
    several = [Band(5, 4, 0, 1_000_001, 0), Band(HIGHEST_FLOW + 1, HIGHEST_FLOW + 2, 1, 1, 1)]
    yield (write(base.with_table(2, several)), "refused 19, reach 3",
           ("channel area A of band 1 of reach 3 is 0 cm2", "dispersion D of band 1 of reach 3 is 1,000,001 cm2/s",
            "storage area AS of band 1 of reach 3 is 0 cm2", "1 to 1,000,000 cm2",
            "the highest flow of band 1 of reach 3, 4 mL/s, is below its lowest, 5 mL/s", "exchange them",
            "lowest flow of band 2 of reach 3 is 100,000,001 mL/s", "highest flow of band 2 of reach 3 is 100,000,002 mL/s"))
    three = [Band(0, 20, 1, 1, 1), Band(15, HIGHEST_FLOW, 1, 1, 1), Band(18, 30, 1, 1, 1)]
    yield (write(base.with_table(0, three)), "refused 19, reach 1",
           ("bands 1 and 2 of reach 1 both hold 15 to 17 mL/s: they go from 0 to 20 mL/s and 15 to 100,000,000 mL/s",
            "bands 1, 2 and 3 of reach 1 all hold 18 to 20 mL/s", "take out all but one of them",
            "bands 2 and 3 of reach 1 both hold 21 to 30 mL/s"))
    slow = [band._replace(D=0) for band in base.bands[0]]
    yield (write(base.with_table(0, slow)), "refused 11, segment 1",
           ("in segment 1 (reach 1, band 1) Q × dx, 20,010 × 1,000", "of at least 1,112 cm2/s in band 1 of reach 1 would do here",
            "  reach 2 has no bands: A, D and AS are the reach's own with every flow",
            "  top flow     1 to 3     1       1      10,000 to 24,999        20,010 to 20,050\n"))
    yield (write(base.with_table(0, slow).with_header(top_flow=0).with_reach(0, qin=0)), "refused 10, segment 1",
           ("the flow is -5 mL/s", "  top flow     1 to 3     1       none                           -25 to -5\n",
            "               7 to 9     3       2      0 to 20,149             40 to 80\n"))
    yield (sheet, "accepted", (
        "3 flow rows, 5 bands, 3 boundary rows; gauges in segment 1 (10 m)",
        "of AD own + AD below (segment 5, flow row 3)", "T is at most 0.098175 (segment 7, the top flow)",
        "V is at most 0.049333 (segment 1, flow row 2), h is at most 0.025 (segment 1)",
        "  flow         from step          at the top    along the river (10)    Q × dx (11)            T (12)                 V (12)\n",
        "  reach 2 has no bands: A, D and AS are the reach's own with every flow\n",
        "  flow         segments   reach   band   its flows, mL/s         flow there, mL/s\n",
        "  top flow     1 to 3     1       1      10,000 to 24,999        20,010 to 20,050\n",
        "               7          3       2      0 to 20,149             20,130\n",
        "               8 to 9     3       1      20,150 to 100,000,000   20,150 to 20,170\n",
        "  flow row 2   1 to 3     1       3      0 to 9,999              8,010 to 8,050\n"))
    yield (write(base.with_bands(base.bands[0])), "accepted", ("  reaches 2 and 3 have no bands: A, D",))
    yield (write(base.with_bands(*[base.bands[0]] * 3).with_flows((1, 20_000), (2, 9_000), (3, 20_000), (4, 9_000))), "accepted",
           ("  flow row 1   as top flow\n", "  flow row 3   as top flow\n  flow row 4   as flow row 2\n"))


LONGEST_DX = "the longest dx for which the whole river passes 11, all else unchanged: "
LONGEST_DT = "the longest dt for which the whole river passes 12, all else unchanged: "
WITH_THAT_DX = "the longest dt for which the whole river passes 12 with that dx: "
NO_RIVER = "the longest dx and dt: not to be told while the reaches or the flow at the top are out of range"
NO_FLOWS = NO_RIVER.replace("the flow at", "a flow at")
NO_BANDS = "the longest dx and dt: not to be told while the reaches, bands or a flow at the top are at fault"


def told_of_longest() -> Iterator[tuple[str, Draft, list[str]]]:
    """Rivers, and what their explanation ends in; the brook passes 11 where Q x dx is at most 10,000."""
    base = plain()
    yield "accepted", brook(dt=2, Q=100), [f"{LONGEST_DX}100 cm (1 m)", f"{LONGEST_DT}3 s"]
    yield "refused 12", brook(dt=4, Q=100), [f"{LONGEST_DX}100 cm (1 m)", f"{LONGEST_DT}3 s"]
    yield ("refused 11", brook(dt=1, Q=100).with_header(dx=101),
           [f"{LONGEST_DX}100 cm (1 m)", f"{LONGEST_DT}203 s", f"{WITH_THAT_DX}200 s"])
    yield "refused 11", brook(dt=1, Q=1_001), [f"{LONGEST_DX}none from 10 to 10,000 cm", f"{LONGEST_DT}1 s"]
    yield ("refused 10", sheets.slope(68, 2), [f"{LONGEST_DX}997 cm (9.97 m)",
           f"{LONGEST_DT}not to be told while dx or a flow is out of range", f"{WITH_THAT_DX}994 s"])
    yield "refused 12", brook(dt=1, Q=0, LAMBDA=10 ** 9, ALPHA=10 ** 9, LAMHAT=10 ** 9), [
        f"{LONGEST_DX}10,000 cm (100 m)", f"{LONGEST_DT}none from 1 to 3,600 s"]
    yield "accepted", brook(dt=2, Q=0, D=0), [f"{LONGEST_DX}10,000 cm (100 m)", f"{LONGEST_DT}3,600 s"]
    yield "refused 5", brook(dt=7_200, Q=100), [f"{LONGEST_DX}100 cm (1 m)", f"{LONGEST_DT}3 s"]
    yield ("refused 5", brook(dt=2, Q=100).with_header(dx=9), [f"{LONGEST_DX}100 cm (1 m)",
           f"{LONGEST_DT}not to be told while dx or a flow is out of range", f"{WITH_THAT_DX}200 s"])
    yield "refused 9", replace(brook(dt=2, Q=100), gauges=[2]), [f"{LONGEST_DX}100 cm (1 m)", f"{LONGEST_DT}3 s"]
    for number, draft in ((5, base.with_header(top_flow=model.HIGHEST_FLOW + 1)), (6, base.with_reach(1, A=0)),
                          (7, still_reaches(1_024, 1))):
        yield f"refused {number}", draft, [NO_RIVER]
    # with flow rows: the lowest flow and the highest decide
    flows = [(1, 100), (2, 50)]
    yield ("accepted", brook(dt=2, Q=0, M=2).with_flows(*flows), [f"{LONGEST_DX}100 cm (1 m)", f"{LONGEST_DT}3 s"])
    yield ("refused 12", brook(dt=4, Q=0, M=2).with_flows(*flows), [f"{LONGEST_DX}100 cm (1 m)", f"{LONGEST_DT}3 s"])
    yield ("refused 11", brook(dt=1, Q=0, M=2).with_flows(*flows).with_header(dx=101),
           [f"{LONGEST_DX}100 cm (1 m)", f"{LONGEST_DT}203 s", f"{WITH_THAT_DX}200 s"])
    yield ("refused 10", sheets.falling(2_000, 113), [f"{LONGEST_DX}994 cm (9.94 m)",
           f"{LONGEST_DT}not to be told while dx or a flow is out of range", f"{WITH_THAT_DX}988 s"])
    yield "refused 16", brook(dt=2, Q=0).with_flows((1, 10 ** 8 + 1)), [NO_FLOWS]
    # with bands: a flow between the lowest and the highest may decide, by AD of its band; AD is 1,000 from 60 to 99 mL/s
    low, middle, high = Band(0, 59, 100, 50, 100), Band(60, 99, 100, 10, 100), Band(100, HIGHEST_FLOW, 100, 50, 100)
    for top, dx in ((60, 33), (59, 100)):
        yield ("accepted", brook(dt=2, Q=0, M=2).with_flows((1, top), (2, 100)).with_bands([low, middle, high]),
               [f"{LONGEST_DX}{dx} cm ({dx / 100:g} m)", f"{LONGEST_DT}3 s"])
    # V of a band: b is dt x ALPHA x A / (2 x 10^9 x AS)
    yield ("accepted", brook(dt=1, Q=0, D=0, ALPHA=10 ** 7).with_flows((1, 7)).with_bands(
        [Band(0, 6, 100, 0, 100), Band(7, HIGHEST_FLOW, 100, 50, 1)]), [f"{LONGEST_DX}1,428 cm (14.28 m)", f"{LONGEST_DT}2 s"])
    yield ("refused 19", brook(dt=1, Q=0).with_flows((1, 7)).with_bands([Band(0, 6, 100, 0, 100)]), [NO_BANDS])
    yield ("refused 6", brook(dt=1, Q=0, A=0).with_flows((1, 7)).with_bands([low, middle, high]), [NO_BANDS])


class Place(NamedTuple):
    """A segment with one flow at the top, from the documents' words: its reach, flow, the number of its band, and AD."""

    reach: int
    Q: int
    band: int                       # 0 where it has none
    AD: int


def places(draft: Draft, top: int, dx: int) -> list[Place]:
    found, gain = [], 0
    for at, reach in enumerate(draft.reaches):
        bands = draft.bands[at] if draft.bands else []
        for _ in range(reach.segments):
            Q = top + (2 * gain + reach.qin - reach.qout) * dx // 200_000
            gain += reach.qin - reach.qout
            inside = [number for number, band in enumerate(bands, 1) if band.lowest <= Q <= band.highest]
            AD = bands[inside[0] - 1].A * bands[inside[0] - 1].D if inside else reach.A * reach.D
            found.append(Place(at + 1, Q, *inside or [0], AD))
    return found


def tops(draft: Draft) -> list[int]:
    return [draft.header.top_flow, *(row.top_flow for row in draft.flow_rows or ())]


def passes_11(draft: Draft, dx: int) -> bool:
    """Tests 10 and 11 once more, from the documents' words, for the top flow and every row's."""
    for top in tops(draft):
        along = places(draft, top, dx)
        for here, below in zip(along, [*along[1:], along[-1]]):
            if not 0 <= here.Q <= 100_000_000 or here.Q * dx > here.AD + below.AD:
                return False
    return True


def passes_12(found: model.Sheet, dt: int) -> bool:
    try:
        model.rivers_of(replace(found, header=found.header._replace(dt=dt)))
    except model.Refusal:
        return False
    return True


def passes_long_but_not_shorter() -> Draft:
    """The outflow of segment 1 leaves nothing for segment 2 where segments are 10,000 cm long."""
    upper = BROOK_REACH._replace(A=1_000, D=10_000, qout=10_000)
    return Draft(Header(1, 10_000, 1, 1, 1_000), [upper, BROOK_REACH])


def longest_checks() -> Iterator[Check]:
    """The longest dx and dt are the longest of all that there are, tried one by one."""
    for first, draft, wanted in told_of_longest():
        lines = explain.words(write(draft)).split("\n")
        told = [line.strip() for line in lines if line.startswith("  the longest ")]
        yield Check(f"longest: {first}, {wanted}", (lines[0].split(",")[0], told), (first, wanted))
    for sheet, first, _ in told_of_sheets():
        if first in ("refused 1", "refused 2", "refused 3", "refused 4"):
            yield Check(f"longest: {first}, nothing", "the longest" in explain.words(sheet), False)
    rng = random.Random("longest")
    rivers = [passes_long_but_not_shorter(), passes_long_but_not_shorter().with_header(top_flow=999)]
    for draw in [draw_river] * 12 + [draw_flow_river] * 6 + [draw_band_river] * 8:
        draft = sheets.good_river(rng, rng.randint(1, 5), 3, draw)
        changes = dict(qin=rng.choice((0, 10, 3_000, 10 ** 7)), qout=rng.choice((0, 20, 3_000, 10 ** 5)),
                       D=rng.choice((0, 1, 900, 10 ** 6)))
        rivers.append(draft.with_reach(rng.randrange(len(draft.reaches)), **changes))
    longest = [explain.longest_segments(model.read_sheet(write(draft))) for draft in rivers]
    for draft, dx in zip(rivers, longest):
        wanted = next((each for each in range(10_000, 9, -1) if passes_11(draft, each)), 0)
        yield Check("the longest dx", dx, wanted)
    yield Check("none, the longest, and others", [0 in longest, 10_000 in longest, len(set(longest)) > 5],
                [True] * 3)
    yield Check("shorter segments need not pass", [passes_11(rivers[0], dx) for dx in (5_000, 10_000)],
                [False, True])
    for draft in (brook(dt=1, Q=700, D=40), brook(dt=1, Q=0, D=0, LAMHAT2=3_333_333, ALPHA=1_234_567),
                  brook(dt=1, Q=100, M=2).with_flows((1, 900), (2, 0)),
                  brook(dt=1, Q=100, M=2, ALPHA=10 ** 6).with_flows((1, 900), (2, 0)).with_bands(
                      [Band(0, 99, 70, 40, 9), Band(100, HIGHEST_FLOW, 99, 70, 50)])):
        found = model.read_sheet(write(draft))
        passing = [dt for dt in range(1, 3_601) if passes_12(found, dt)]
        yield Check("the longest dt", (explain.longest_step(found), len(passing)), (max(passing), max(passing)))
    biggest = Draft(Header(1, 10, 1, 1, 0), [BROOK_REACH._replace(segments=16, A=1_000, D=10_000, qin=100)] * 64)
    begin = time.monotonic()
    explain.words(write(biggest))
    yield Check("1,024 segments: within two seconds", time.monotonic() - begin < 2, True)


def told_places(words: str) -> dict[tuple[int, int], tuple[int, int, range]]:
    """What an explanation says of bands: by flow (0 is the top flow) and segment its reach, band and the flows of its run."""
    found: dict[tuple[int, int], tuple[int, int, range]] = {}
    lines = iter(words.split("\n"))
    next(line for line in lines if line.split()[:2] == ["flow", "segments"])

    def ends(text: str) -> range:
        low, _, high = text.replace(",", "").partition(" to ")
        return range(int(low), int(high or low) + 1)

    flow = -1
    for line in lines:
        if "the longest dx" in line:
            break
        name, *rest = re.split(r"   +", line[2:].rstrip())
        flow = {"": flow, "top flow": 0}[name] if name in ("", "top flow") else int(name.removeprefix("flow row "))
        if rest[0].startswith("as "):
            like = 0 if rest[0] == "as top flow" else int(rest[0].removeprefix("as flow row "))
            found |= {(flow, segment): what for (row, segment), what in found.items() if row == like}
        else:
            segments, reach, band, *_, flows = rest
            found |= {(flow, segment): (int(reach), 0 if band == "none" else int(band), ends(flows)) for segment in ends(segments)}
    return found


def band_checks() -> Iterator[Check]:
    """The band of every segment with every flow, and cures of 19 that do cure it."""
    rng = random.Random("bands")
    lines = segments = 0
    for _ in range(40):
        draft = sheets.good_river(rng, rng.randint(1, 50), 3, draw_band_river)
        if not any(draft.bands):
            continue
        words = explain.words(write(draft))
        wanted = {(flow, segment): place for flow, top in enumerate(tops(draft))
                  for segment, place in enumerate(places(draft, top, draft.header.dx), 1) if place.band}
        told = told_places(words)
        yield Check("a band for each segment", {at: what[:2] for at, what in told.items()},
                    {at: (place.reach, place.band) for at, place in wanted.items()})
        yield Check("its flow", all(place.Q in told[at][2] for at, place in wanted.items() if at in told), True)
        lines, segments = lines + len(words.split("\n")), segments + len(wanted)
    yield Check("lines for runs of segments", (segments > 1_200, lines < segments), (True, True))
    cured = 0
    while cured < 150:
        lows = sorted(rng.sample(range(1, 40), rng.randint(1, 5)))
        bands = sheets.in_any_order(rng, sheets.covering(lows, lambda: (1, 1, 1)))
        at, name = rng.randrange(len(bands)), rng.choice(("lowest", "highest"))
        wrong = min(HIGHEST_FLOW, max(0, getattr(bands[at], name) + rng.randint(-4, 4)))
        spoiled = [*bands[:at], bands[at]._replace(**{name: wrong}), *bands[at + 1:]]
        draft = plain_flows().with_bands([], spoiled)
        faults = explain.faults(write(draft))
        if len(faults) != 1 or faults[0].number != 19 or faults[0].field:
            continue
        for verb, number, flow in re.findall(r"(end|begin) band (\d+) at ([\d,]+)", faults[0].remedy):
            changes = {{"end": "highest", "begin": "lowest"}[verb]: int(flow.replace(",", ""))}
            mended = [band._replace(**changes) if each == int(number) else band for each, band in enumerate(spoiled, 1)]
            refusal = model.answer(write(draft.with_table(1, mended)))
            yield Check(f"{verb} band {number} at {flow}: {spoiled}", refusal is None or refusal.number != 19, True)
            cured += 1


def explain_checks() -> Iterator[Check]:
    seen = set()
    for sheet in refused_sheets():
        refusal, found = model.answer(sheet), explain.faults(sheet)
        seen.add(refusal.number)
        yield Check("number and place", [(fault.number, fault.place) for fault in found[:1]],
                    [(refusal.number, refusal.place)])
        yield Check("a fact and a remedy", all(fault.fact and fault.remedy for fault in found), True)
    yield Check("every refusal", seen, {*range(1, 13), 16, 19})
    far = plain_bands().with_table(1, [Band(HIGHEST_FLOW + 1, 5, 1, 1, 1), Band(3, 4, 1, 1, 0)])
    yield Check("limits that are no flows leave none out", [fault.fact for fault in explain.faults(write(far))],
                ["lowest flow of band 1 of reach 2 is 100,000,001 mL/s", "storage area AS of band 2 of reach 2 is 0 cm2"])
    for sheet, first, wanted in told_of_sheets():
        words = explain.words(sheet)
        missing = [line for line in wanted if line not in words]
        yield Check(f"explain: {first}", (words.split("\n")[0], missing), (first, []))


def remedy_checks() -> Iterator[Check]:
    """What an explanation advises does lift the refusal, and a little less does not."""
    def number(draft: Draft) -> int:
        refusal = model.answer(write(draft))
        return refusal.number if refusal else 0

    yield Check("10: the flow advised", number(sheets.slope(69, 2)), 0)
    yield Check("11: the dispersion advised", [number(brook(dt=1, Q=1_001, D=D)) for D in (50, 51)], [11, 0])
    two = Draft(Header(1, 100, 1, 1, 100), [BROOK_REACH._replace(D=60), BROOK_REACH._replace(D=39)])
    yield Check("11: between reaches", [fault.remedy for fault in explain.faults(write(two))],
                ["the segments are too long for the dispersion: segments of at most 99 cm "
                 "or a dispersion D of at least 61 cm2/s in reach 1 would do here"])
    yield Check("11: that dispersion moves it on", model.answer(write(two.with_reach(0, D=61))).place,
                ("segment", 2))
    split = [Band(102, HIGHEST_FLOW, 100, 39, 100), Band(0, 101, 100, 60, 100)]
    parted = Draft(Header(1, 100, 1, 1, 99), [BROOK_REACH._replace(segments=2, qin=2_000)]).with_flows((1, 99)).with_bands(split)
    yield Check("11: between bands", [fault.remedy for fault in explain.faults(write(parted))],
                ["the segments are too long for the dispersion: segments of at most 99 cm "
                 "or a dispersion D of at least 61 cm2/s in band 2 of reach 1 would do here"])
    more = parted.with_table(0, [split[0], split[1]._replace(D=61)])
    yield Check("11: that dispersion moves it on, too", model.answer(write(more)).place, ("segment", 2))
    steep = parted.with_header(dx=200).with_table(0, [Band(101, HIGHEST_FLOW, 100, 100, 100), Band(0, 100, 100, 50, 100)])
    yield Check("11: no length that leads into another band", [fault.remedy for fault in explain.faults(write(steep))],
                ["the segments are too long for the dispersion: a dispersion D of at least 101 cm2/s in band 1 of reach 1 would do here"])
    yield Check("10: the flow row advised", [number(sheets.falling(114, 114, flow)) for flow in (113, 114)], [10, 0])
    rng = random.Random("remedies")
    tried = 0
    while tried < 25:
        draft = sheets.good_river(rng, rng.randint(1, 8), 3, (draw_river, draw_flow_river, draw_band_river)[tried % 3])
        longest = explain.longest_step(model.read_sheet(write(draft)))
        if longest < 3_600:
            tried += 1
            yield Check("12: the longest step", [number(draft.with_header(dt=longest + more)) for more in (0, 1)],
                        [0, 12])


# Curves

LISTING = """\
step segment channel storage sediment
10 3 1000000 5 0
10 8 1000000 5 70
20 3 4000000 6 0
20 8 1000001 6 71
30 3 2000000 7 0
30 8 3000000 7 72
40 3 1000000 7 0
40 8 2500000 8 73
done 44
"""
# The water of segment 3 is above 2.5 mg/L twice, the second time to the end; that of segment 8 never is.
TWO_SPILLS = """\
step segment channel storage sediment
10 3 1000000 0 0
10 8 1200000 0 0
20 3 4000000 0 0
20 8 1300000 0 0
30 3 2500000 0 0
30 8 1350000 0 0
40 3 1000000 0 0
40 8 1400000 0 0
50 3 4200000 0 0
50 8 1300000 0 0
60 3 2500001 0 0
60 8 1200000 0 0
done 60
"""
BAD_LISTINGS = (
    ("refused 12\n", "the sheet was refused 12"), ("", "begins with the line"), ("step\n", "begins with the line"),
    (LISTING.replace("done 44\n", ""), "not complete"), (f"{model.HEADING}\ndone 3\n", "no line of figures"),
    (LISTING.replace("20 8 1000001", "20 8 x"), "line 5 of the listing"),
)


def shown(listing: str, **options: Any) -> curves.Show:
    """A listing as curves.py shows it, with some options."""
    default = dict(sheet=None, dt=60, show=["channel"], limit=None, clock=None, title="")
    return curves.Show(curves.read_listing(listing), argparse.Namespace(**(default | options)))


def short_spells(steps: int) -> str:
    """A listing of 12,000 lines, so many steps apart: above 1 ng/L in one line, and again 15 lines later."""
    lines = [f"{at * steps} 1 {2 if at in (5_000, 5_015) else 0} 0 0\n" for at in range(1, 12_001)]
    return "".join([f"{model.HEADING}\n", *lines, f"done {12_000 * steps}\n"])


def cells(line: str) -> list[str]:
    return re.split(r"   +", line.strip())


def paragraphs(text: str) -> list[list[str]]:
    """The stretches of lines between empty ones."""
    return [part.split("\n") for part in re.split(r"\n\n+", text.strip("\n"))]


def blocks(document: str) -> list[list[str]]:
    """The indented paragraphs of a document."""
    found = paragraphs((ROOT / document).read_text(encoding="utf-8"))
    return [[line[4:] for line in lines] for lines in found if all(line.startswith("    ") for line in lines)]


def one_line(text: str) -> str:
    """Its words, wherever its lines end."""
    return " ".join(text.split())


def svg_shape(text: str) -> tuple[int, int, int]:
    """Curves, limit lines and bars of a picture; parsing fails where it is not well formed."""
    kinds = [part.get("class") for part in ElementTree.fromstring(text).iter()]
    return kinds.count("curve"), kinds.count("limit"), kinds.count("bar")


def corners(part: ElementTree.Element) -> list[tuple[float, float]]:
    """The points of a curve, or two corners of a bar."""
    if part.tag == f"{SVG}path":
        numbers = [float(number) for number in re.findall(r"[\d.]+", part.get("d"))]
        return list(zip(numbers[::2], numbers[1::2]))
    x, y, width, height = (float(part.get(name)) for name in ("x", "y", "width", "height"))
    return [(x, y), (x + width, y + height)]


def inside(text: str) -> bool:
    """Every curve, bar and line of text stays inside the picture."""
    root = ElementTree.fromstring(text)
    width, height = float(root.get("width")), float(root.get("height"))
    points = [point for part in root.iter() if part.get("class") in ("curve", "bar") for point in corners(part)]
    points += [(0, float(part.get("y"))) for part in root.iter(f"{SVG}text")]
    return all(0 <= x <= width and 0 <= y <= height for x, y in points)


class Bars(NamedTuple):
    """What a picture has of one gauge's spells: where each begins and ends, and what it says."""

    ends: list[tuple[float, float]]
    words: list[str]


def bars_of(text: str) -> tuple[list[list[float]], list[Bars], list[str]]:
    """The x of each curve's points, the bars in each curve's colour, and all texts."""
    root = ElementTree.fromstring(text)
    drawn = [part for part in root.iter() if part.get("class") == "curve"]
    found = []
    for curve in drawn:
        own = [part for part in root.iter()
               if part.get("class") == "bar" and part.get("fill") == curve.get("stroke")]
        ends = [tuple(x for x, _ in corners(part)) for part in own]
        found.append(Bars(ends, [part.findtext(f"{SVG}title") for part in own]))
    across = [[x for x, _ in corners(curve)] for curve in drawn]
    return across, found, [part.text for part in root.iter(f"{SVG}text")]


def bad_listing(text: str) -> str:
    try:
        curves.read_listing(text)
    except curves.BadListing as bad:
        return str(bad)
    return ""


def table_checks() -> Iterator[Check]:
    """Tables and plots in text."""
    show = shown(LISTING, limit=2_500_000)
    yield Check("gauges", [gauge.segment for gauge in show.gauges], [3, 8])
    yield Check("table", [cells(line) for line in show.table("channel")],
                [["gauge", "peak, channel", "first at", "above 2.5 mg/L from", "until"],
                 ["segment 3", "4 mg/L", "20.00 min", "20.00 min", "30.00 min"],
                 ["segment 8", "3 mg/L", "30.00 min", "30.00 min", "40.00 min"]])
    never = shown(LISTING, limit=4_000_000, dt=3_600, clock=8.25)
    yield Check("a limit that is not passed", cells(never.table("channel")[1]),
                ["segment 3", "4 mg/L", "28.25 h", "never above"])
    two = shown(TWO_SPILLS, limit=2_500_000)
    two.dx = 1_000
    yield Check("two spills", two.table("channel")[1:],
                [" 30 m        4.2 mg/L   50.00 min             20.00 min                30.00 min",
                 " 30 m                                         50.00 min   still above at the end",
                 " 80 m        1.4 mg/L   40.00 min           never above"])
    yield Check("two spills, as docs/TOOLS.md shows them", two.table("channel") in blocks("docs/TOOLS.md"), True)
    for dt, steps, times in (
            (1, 1, ["1.3889 h", "1.3892 h", "1.3931 h", "1.3933 h"]),           # 0.36 s in the last digit
            (10, 1, ["13.889 h", "13.892 h", "13.931 h", "13.933 h"]),
            (1, 10, ["13.889 h", "13.892 h", "13.931 h", "13.933 h"])):
        table = shown(short_spells(steps), dt=dt, limit=1).table("channel")
        yield Check(f"two short spells, {dt} s x {steps}", [cells(line)[-2:] for line in table[1:]],
                    [times[:2], times[2:]])
    yield Check("a line every 36 s", shown(short_spells(36), dt=1, clock=8.255).clock.words(36), "8.265 h")
    one_line = shown(f"{model.HEADING}\n12000 1 0 0 0\ndone 12000\n", dt=1)
    yield Check("one line", one_line.clock.words(12_000), "3.3333 h")
    same = shown(f"{model.HEADING}\n12000 1 0 0 0\n12000 1 0 0 0\ndone 12000\n", dt=1)
    yield Check("a step twice", same.clock.words(12_000), "3.3333 h")
    for limit, words in ((1_234_567, "1.234567 mg/L"), (999_999_999, "999.999999 mg/L"),
                         (Fraction(12_345_678_905, 10), "about 1234.56789 mg/L")):
        close = shown(TWO_SPILLS, limit=Fraction(limit))
        yield Check(f"limit of {words}", [words in close.table("channel")[0], f">limit {words}<" in close.svg(),
                                          f">above {words}<" in close.svg()], [True] * 3)
    storage = shown(TWO_SPILLS, show=["storage"], limit=1).table("storage")
    yield Check("the limit is for the channel", cells(storage[0]), ["gauge", "peak, storage", "first at"])
    rng = random.Random("spells")
    for _ in range(100):
        steps = list(range(7, 7 * rng.randint(2, 20), 7))
        gauge = curves.Gauge(1, steps, {"channel": [rng.choice((0, 5, 6)) for _ in steps]})
        found = curves.spells(gauge, "channel", Fraction(11, 2))
        ends = [each for spell in found for each in spell]
        in_spells = [any(spell.begin <= step and (spell.until is None or step < spell.until) for spell in found)
                     for step in steps]
        figures = gauge.figures["channel"]
        yield Check(f"spells of {figures}", in_spells, [figure == 6 for figure in figures])
        yield Check(f"apart in {figures}", None in ends[:-1] or ends[:-1] != sorted(set(ends[:-1])), False)
    for name, figure, unit in (("channel", 999, "ng/L"), ("channel", 1_000, "µg/L"), ("sediment", 10 ** 6, "µg/g"),
                               ("storage", 0, "ng/L")):
        yield Check(f"unit of {figure}", curves.Scale.for_figures(name, figure).unit, unit)
    plot = show.plot(show.gauges[0], "channel", curves.BLOCKS)
    yield Check("plot", (len(plot), "█" in plot[1], max(map(len, plot)) <= 80),
                (curves.PLOT_HEIGHT + 2, True, True))
    for text, words in BAD_LISTINGS:
        yield Check(f"bad listing: {words}", words in bad_listing(text), True)
    for text, figure in (("10 mg/L", 10 ** 7), ("10mg/l", 10 ** 7), ("5 ng/L", 5), ("1.5 ug/L", 1_500),
                         ("1.5 ng/L", Fraction(3, 2))):
        yield Check(f"limit {text}", curves.limit_figure(text), figure)
    for text, words in (("9", "'9' has no unit: write one of ng/L, ug/L, mg/L, g/L, ug/m3, mg/m3, g/m3 after"),
                        ("9 mg", "'mg' is not a unit of concentration: write one of ng/L, ug/L, mg/L,"),
                        ("much", "'much' is not a concentration such as '10 mg/L'")):
        ran = tool(CURVES, "--dt", 2, "--limit", text, given=LISTING.encode())
        yield Check(f"limit {text}", (ran.returncode, words in ran.stderr.decode()), (2, True))
    ran = tool(CURVES, "--dt", 2, "--limit", "1 mg/L", "--show", "storage", given=LISTING.encode())
    yield Check("a limit without the channel", (ran.returncode, "leaves the channel out" in ran.stderr.decode()), (2, True))


def picture_checks() -> Iterator[Check]:
    """The SVG is well formed, with one curve for each gauge and panel, all inside."""
    for names in (["channel"], ["channel", "storage", "sediment"]):
        svg = shown(LISTING, show=names, limit=2_500_000, title="<a & 'b'>").svg()
        yield Check(f"svg of {names}", (svg_shape(svg), inside(svg)), ((2 * len(names), 1, 2), True))
    many = "".join([f"{model.HEADING}\n", *(f"5 {gauge} {gauge} 0 0\n" for gauge in range(1, 33)), "done 5\n"])
    yield Check("32 gauges, one step", svg_shape(shown(many).svg()), (32, 0, 0))
    crowded = shown(many, limit=Fraction(31)).svg()
    yield Check("32 gauges, one of them above", (svg_shape(crowded), inside(crowded)), ((32, 1, 1), True))
    clean = shown(f"{model.HEADING}\n1 1 0 0 0\n2 1 0 0 0\ndone 2\n").svg()
    yield Check("clean water", (svg_shape(clean), inside(clean)), ((1, 0, 0), True))
    svg = shown(TWO_SPILLS, limit=2_500_000).svg()
    (x, _), bars, words = bars_of(svg)
    ends = [[tuple(round(end, 1) for end in each) for each in own.ends] for own in bars]
    yield Check("a bar for each spell", ends, [[(x[1], x[2]), (x[4], x[5])], []])
    yield Check("what the bars say", bars[0].words, ["segment 3: above from 20.00 min, until 30.00 min",
                                                     "segment 3: above from 50.00 min, still above at the end"])
    legend = ("above 2.5 mg/L", "segment 3", "segment 8", "still above at the end", "never above")
    yield Check("their legend", [words.count(each) for each in legend], [1, 2, 2, 1, 1])
    with tempfile.TemporaryDirectory() as folder:
        sheet, picture = Path(folder) / "a.otr", Path(folder) / "a.svg"
        sheet.write_bytes(write(replace(plain(), gauges=[3, 8])))
        ran = tool(CURVES, "--sheet", sheet, "-o", picture, "--limit", "1 mg/L",
                   given=model.listing(sheet.read_bytes()))
        yield Check("curves.py", (ran.returncode, svg_shape(picture.read_text(encoding="utf-8"))), (0, (2, 1, 0)))
        plainer = tool(CURVES, "--sheet", sheet, given=model.listing(sheet.read_bytes()), encoding="ascii")
        yield Check("curves.py, a plain terminal", (plainer.returncode, b"###" in plainer.stdout), (0, True))
        yield Check("gauges in metres", [b" 30 m" in ran.stdout, b" 80 m" in ran.stdout], [True, True])
        other = tool(CURVES, "--sheet", sheet, given=LISTING.replace(" 8 ", " 9 ").encode())
        yield Check("another sheet's listing", (other.returncode, b"not those of" in other.stderr), (1, True))
        refused = tool(CURVES, "--dt", "2", given=b"refused 5\n")
        yield Check("curves.py, refused", (refused.returncode, b"refused 5" in refused.stderr), (1, True))


# The examples


def stored(name: str) -> str:
    """An example's stored listing."""
    return (EXAMPLES / f"{name}.listing").read_text(encoding="ascii")


def shortened(draft: Draft, steps: int, interval: int) -> bytes:
    """The sheet with fewer steps; rows that start later fall away, but for one that changes nothing where there are bands."""
    rows = [row for row in draft.rows if row.start <= steps]
    flow_rows = [row for row in draft.flow_rows or () if row.start <= steps] or None
    if draft.bands is not None and flow_rows is None:
        flow_rows = [FlowRow(1, draft.header.top_flow)]
    return write(replace(draft, rows=rows, flow_rows=flow_rows).with_header(M=steps, interval=interval))


def early_injection(draft: Draft) -> bytes:
    """The rows brought forward, so that a short run sees the injection; gauges at the ends of reaches."""
    rows = [row._replace(start=4 * at) for at, row in enumerate(draft.rows)]
    flow_rows = draft.flow_rows and [row._replace(start=at) for at, row in enumerate(draft.flow_rows, 1)]
    first, second, *_ = accumulate(reach.segments for reach in draft.reaches)
    gauges = [1, 2, first, second + 1, draft.segments]
    return shortened(replace(draft, rows=rows, gauges=gauges, flow_rows=flow_rows), 30, 10)


def example_checks() -> Iterator[Check]:
    yield Check("the examples", {path.stem for path in EXAMPLES.glob("*.otr")}, set(DRAFTS))
    for name, draft in DRAFTS.items():
        sheet = (EXAMPLES / f"{name}.otr").read_bytes()
        made = sheet_text.make((EXAMPLES / f"{name}.txt").read_text(encoding="utf-8"))
        yield Check(f"{name}: made from its text", (made.sheet, made.mistakes, made.rounded), (sheet, [], []))
        yield Check(f"{name}: the figures that it must hold", sheet, write(draft))
        yield Check(f"{name}: accepted", model.answer(sheet), None)
        gauges = curves.read_listing(stored(name))
        yield Check(f"{name}: gauges of its listing", [gauge.segment for gauge in gauges], draft.gauges)
        yield Check(f"{name}: lines of its listing", gauges[0].steps,
                    list(range(draft.header.interval, draft.header.M + 1, draft.header.interval)))
        short = early_injection(draft)
        C, Z, sediment = float_river.farthest(short, model.listing(short).decode("ascii"))
        yield Check(f"{name}: near the float river", [C.distance < 6, Z.distance < 6, sediment.distance < 6 * 70],
                    [True] * 3)
    sheet = (EXAMPLES / "weir.otr").read_bytes()
    yield listing_check("weir: the model's listing", stored("weir").encode("ascii"), model.listing(sheet))
    refusal = model.answer(write(uvas.strontium(dt=2)))
    yield Check("strontium with 2 s", (refusal.number, refusal.place), (12, ("segment", 106)))
    chloride = model.read_sheet(write(uvas.chloride()))
    found = float_river.figure_13(chloride, float_river.REPORT)
    yield Check("the report's figure 13", float_river.agreeing(found), 24)
    others = {**{f"another {choice}": float_river.other_choice(choice) for choice in float_river.SEARCHED},
              **{f"flow at the {place}": scheme for place, scheme in float_river.FLOWS.items()}}
    for (choice, scheme), same in zip(others.items(), (8, 8, 14, 21, 21, 22), strict=True):
        found = float_river.figure_13(chloride, scheme)
        yield Check(f"figure 13 with {choice}", float_river.agreeing(found), same)


def listing_check(name: str, found: bytes, wanted: bytes) -> Check:
    return Check(name, "" if found == wanted else first_difference(found, wanted), "")


def program_checks(path: str, full: bool) -> Iterator[Check]:
    """The program's listings of the examples: beside the model's, and beside the stored ones."""
    for name, draft in DRAFTS.items():
        M, interval = draft.header.M, draft.header.interval
        for sheet in (early_injection(draft), shortened(draft, 20, 3)):
            found, wanted = printed(path, sheet), model.listing(sheet)
            yield listing_check(f"{name}: the model's listing", found, wanted)
        begun = draft.flow_rows[0].start if draft.flow_rows else 0
        steps = M if full else begun + 2 * interval
        heading, *lines, _ = stored(name).splitlines(keepends=True)
        kept = [line for line in lines if int(line.split()[0]) <= steps]
        wanted = "".join([heading, *kept, f"done {steps}\n"]).encode("ascii")
        found = printed(path, shortened(draft, steps, interval))
        yield listing_check(f"{name}: its stored listing, {steps} steps", found, wanted)
    if full:
        yield from steady_checks(path)
        yield from weir_checks(path)


def weir_checks(path: str) -> Iterator[Check]:
    """What docs/WEIR.md says of the intake, with bands and in one area, and of a release just before the flow changes."""
    document = one_line((ROOT / "docs" / "WEIR.md").read_text(encoding="utf-8"))
    text = (EXAMPLES / "weir.txt").read_text(encoding="utf-8")
    release = "2         0.5   152\n3         0.75  2\n4         5.25  22\n5         5.5   2\n"
    low = without = text.split("\n# Width grows")[0]         # the text without its bands
    one_area = sheet_text.make(without)
    yield Check("one area: its mark", (one_area.sheet[:4], one_area.mistakes), (model.FLOW_MARK, []))
    listings = [stored("weir"), printed(path, one_area.sheet).decode()]
    intakes = [curves.read_listing(listing)[-1] for listing in listings]
    limit = curves.limit_figure("8 mg/L")
    opened = weir.OPENING[0][0] * weir.MINUTE
    for hour, early in (("0.5", True), ("5.25", False)):
        told = []
        for intake in intakes:
            begin, until = next(spell for spell in curves.spells(intake, "channel", limit) if (spell.begin < opened) == early)
            highest = max(figure for step, figure in zip(intake.steps, intake.figures["channel"]) if (step < opened) == early)
            told += [f"{begin / 360:.2f} to {until / 360:.2f} h", f"{highest / 10 ** 6:.5g} mg/L"]
        yield Check(f"docs/WEIR.md: the release at {hour} h", f"| release at {hour} h | {' | '.join(told)} |" in document, True)
    first = intakes[0]
    salt = {step: figure - weir.BACKGROUND for step, figure in zip(first.steps, first.figures["channel"]) if step < opened}
    passed = sum(figure for step, figure in salt.items() if step <= 2.15 * 360) / sum(salt.values())
    yield Check("four fifths have passed", (round(passed, 1), "four fifths of the salt" in document), (0.8, True))
    for row, figures in (("1      400     7    0.88  0.11", "2.3 0.44 0.07"), ("2      500     5.2  1.21  0.24", "2.1 0.61 0.16"),
                         ("3      300     4    1.65  0.56", "1.9 0.83 0.37")):
        low = low.replace(row, f"{' '.join(row.split()[:2])} {figures}")
    yield Check("low water's area", [mistake.number for mistake in sheet_text.make(low).mistakes], [11])
    A = weir.BANDS[1][1][0]                                 # of the upper reach; Q x dx is at most 2 AD
    v, D = weir.HIGH * 1_000 / A / 100, weir.HIGH * 1_000 * 1_000 / (2 * A) / 10_000
    yield Check("and what it comes to", f"run at {v:.1f} m/s, and test 11 would want a dispersion of some {D:.0f} m²/s" in document, True)
    late = sheet_text.make(text.replace(release, "2 4.25 152\n3 4.5 2\n")).sheet
    intake = curves.read_listing(printed(path, late).decode())[-1]
    Q = [places(weir.brook(), top, 1_000)[-1].Q for top in tops(weir.brook())]
    grams = sum(Q[model.flow_in_force(late, step)] * (figure - weir.BACKGROUND) * weir.brook().header.interval * 10 / 10 ** 12
                for step, figure in zip(intake.steps, intake.figures["channel"]))
    times = f"{grams / (weir.RELEASE / 1_000 * 900):.1f} times its salt would pass"
    yield Check(f"docs/WEIR.md: {times}", times in document, True)


def steady_checks(path: str) -> Iterator[Check]:
    """What docs/SNOWMELT.md says of the intake, with the flow rows and in one flow that gets as much salt."""
    document = one_line((ROOT / "docs" / "SNOWMELT.md").read_text(encoding="utf-8"))
    text = (EXAMPLES / "snowmelt.txt").read_text(encoding="utf-8").split("\nflow  from")[0]
    released = f"~{(snowmelt.BACKGROUND + snowmelt.RELEASE * 1_000_000 / snowmelt.FLOWS[0]) / 1_000_000:.4f}"
    for row in ("2         5     102", "4         16    34"):
        text = text.replace(row, f"{row.rsplit(maxsplit=1)[0]} {released}")
    yield Check("docs/SNOWMELT.md: the release", f"{released[1:]} mg/L in its `boundary` table" in document, True)
    steady = printed(path, sheet_text.make(text).sheet).decode()
    tables = [shown(listing, sheet=EXAMPLES / "snowmelt.otr", clock=0.0, limit=curves.limit_figure("8 mg/L"))
              for listing in (stored("snowmelt"), steady)]
    intake = [[cells(line)[-2:] for line in show.table("channel")[-2:]] for show in tables]
    spells = [[f"{begin.removesuffix(' h')} to {until}" for begin, until in times] for times in intake]
    for hour, *times in zip((5, 16), *spells):
        row = f"| release at {hour} h | {' | '.join(times)} |"
        yield Check(f"docs/SNOWMELT.md: {row}", row in document, True)


# The documents' commands

PICTURE = re.compile(r"!\[[^]]*\]\(\.\./(examples/(.*)\.svg)\)\n\n    (.*)\n")


def run_shown(line: str, example: str, folder: Path, program: bool) -> str:
    """Runs a document's command; what it prints.  Without the program, the example's stored listing stands in."""
    if not program:
        line = line.replace(f"crates/river/out/river < examples/{example}.otr", f"cat examples/{example}.listing")
    ran = subprocess.run(["bash", "-c", f"set -o pipefail; {line}"], cwd=folder, capture_output=True, timeout=120,
                         env=os.environ | {"PYTHONIOENCODING": "utf-8"})
    return (ran.stdout if ran.returncode == 0 else ran.stderr).decode()


def document_checks(full: bool) -> Iterator[Check]:
    """The commands of three documents draw their pictures; they and README.md show what theirs print."""
    found = [each for name in ("UVAS", "SNOWMELT", "WEIR")
             for each in PICTURE.findall((ROOT / "docs" / f"{name}.md").read_text(encoding="utf-8"))]
    yield Check("pictures with a command", [picture for picture, _, _ in found],
                [f"examples/{name}.svg" for name in ("uvas-chloride", "uvas-strontium", "snowmelt", "weir")])
    text, shown_blocks = (ROOT / "README.md").read_text(encoding="utf-8"), blocks("README.md")
    proving = "python3 tools/prove.py river && "
    with tempfile.TemporaryDirectory() as name:
        folder = Path(name)
        for each in ("examples", "tools", "crates"):
            (folder / each).symlink_to(ROOT / each)         # a command names files from the repository's top
        shown_there = {}
        for picture, example, line in found:
            program = RIVER.exists() and (full or example == "uvas-chloride")
            shown_there[example] = run_shown(line, example, folder, program)
            drawn = folder / line.split()[-1]
            yield Check(f"{picture}: drawn by its command",
                        drawn.exists() and drawn.read_bytes() == (ROOT / picture).read_bytes(), True)
        for example in ("snowmelt", "weir"):
            document = f"docs/{example.upper()}.md"
            yield Check(f"{document}: what it shows", paragraphs(shown_there[example])[0] in blocks(document), True)
        line = next(block[0] for block in shown_blocks if block[0].startswith(proving)).removeprefix(proving)
        table, *plots, _ = paragraphs(run_shown(line, "uvas-chloride", folder, False))
    told = explain.words((EXAMPLES / "weir.otr").read_bytes()).split("\n")
    begin = next(at for at, line in enumerate(told) if line.split()[:2] == ["flow", "segments"])
    yield Check("docs/TOOLS.md: which bands", [line[2:] for line in told[begin:begin + 6]] in blocks("docs/TOOLS.md"), True)
    plot = next(plot for plot in plots if plot[0].startswith("433 m"))
    limit = re.search(r'--limit "([^"]*)"', text)[1]
    limited = shown(stored("uvas-chloride"), sheet=EXAMPLES / "uvas-chloride.otr", clock=8.25,
                    limit=curves.limit_figure(limit)).table("channel")
    yield Check("README: what it shows", [each in shown_blocks for each in (table, plot, limited)], [True] * 3)
    yield Check("README: every spell, in these words", 'every spell above the limit at every gauge: from, until, '
                'or "still above at the end"' in one_line(text), True)


# Proofs

CRATES = """\
# one line for each crate; two crates of the kit are among what they name
d: a c
c: b
a:
b staticlib: a io libc
"""
PROVED = """\
case $1-$crate in
lib-a) echo 'fn a::f: proved'; echo 'logic=proved functions=1';;
lib-b) echo 'rt: chose --jobs 2 for b';;
run-c) echo 'logic=proved functions=2' >&2; echo 'rt: running out/c; to give it other input' >&2; cat; echo 'refused 1'; exit 4;;
lib-d) echo 'logic=proved functions=3';;
esac
"""
SLOWLY = "sleep 1.2\n"
FAILED = "\n".join(["case $crate in", "a) echo 'logic=proved functions=1';;", "b)",
                    *(f"echo 'line {at} of b'" for at in range(1, 31)), "echo 'logic=not-proved'",
                    "echo 'the last word' >&2", "exit 3;;", "e) echo 'logic=proved functions=1';;", "esac", ""])
ENDLESS = ("case $crate in\na) echo 'logic=proved functions=1';;\nb) sleep 60 &\necho $! > ../../sleeping\nsleep 0.2\n"
           "wait;;\nesac\n")


class Workshop:
    """A folder with a list of crates, and an `rt` that does what it is told."""

    def __init__(self, folder: Path) -> None:
        self.folder = folder
        (folder / "bin").mkdir()
        for name in "abcde":
            (folder / "crates" / name / "src").mkdir(parents=True)
            (folder / "crates" / name / "src" / ("main.rt" if name == "c" else "lib.rt")).touch()
        (folder / "crates.txt").write_text(CRATES)
        self.options = dict(cwd=folder, env=os.environ | {"PATH": f"{folder / 'bin'}:{os.environ['PATH']}"})

    def rt(self, script: str) -> None:
        path = self.folder / "bin" / "rt"
        path.write_text(f'#!/bin/sh\ncrate=$(basename "$PWD")\necho "$@ in $crate" >> ../../asked\n{script}')
        path.chmod(0o755)
        (self.folder / "asked").unlink(missing_ok=True)

    def asked(self) -> list[str]:
        return (self.folder / "asked").read_text().splitlines()

    def prove(self, *names: str) -> tuple[int, list[str]]:
        """The exit status, and the lines shown without the seconds, which vary."""
        ran = tool(PROVE, *names, **self.options)
        text = (ran.stdout + ran.stderr).decode()
        return ran.returncode, re.sub(r"\d+ s(?= so far|\))|(?<=after )\d+ s", "T", text).splitlines()

    def at_a_terminal(self, *names: str) -> str:
        """What a terminal gets to show."""
        ours, theirs = pty.openpty()
        child = subprocess.Popen([sys.executable, PROVE, *names], stdout=theirs, stdin=subprocess.DEVNULL,
                                 **self.options | {"env": self.options["env"] | {"TERM": "xterm"}})
        os.close(theirs)
        shown_there = b""
        try:
            while piece := os.read(ours, 4096):
                shown_there += piece
        except OSError:                                 # the end of a terminal
            pass
        os.close(ours)
        child.wait(timeout=60)
        return shown_there.decode()

    def stopped(self, how: Callable[[subprocess.Popen], object]) -> tuple[int, bool]:
        """The exit status of a proof that is stopped, and whether what rt had started goes on."""
        with subprocess.Popen([sys.executable, PROVE, "c"], stdout=subprocess.PIPE, **self.options) as child:
            child.stdout.readline()
            until(lambda: (self.folder / "sleeping").exists() and (self.folder / "sleeping").read_text())
            sleeper = int((self.folder / "sleeping").read_text())
            (self.folder / "sleeping").unlink()
            how(child)
            status = child.wait(timeout=30)
        return status, not until(lambda: ended(sleeper))


def ended(process: int) -> bool:
    """The process is no more, or waits for its parent to take note of that (Z)."""
    try:
        return Path(f"/proc/{process}/stat").read_text().rsplit(")", 1)[1].split()[0] == "Z"
    except FileNotFoundError:
        return True


def until(holds: Callable[[], object]) -> bool:
    """Waits until something holds, some seconds at most; whether it does."""
    for _ in range(200):
        if holds():
            return True
        time.sleep(0.02)
    return False


HEAD = "3 crates, each proved if it has changed since it last was; prove.log has all that rt prints"


def proof_checks() -> Iterator[Check]:
    """What prove.py shows of an rt that is none."""
    with tempfile.TemporaryDirectory() as name:
        work = Workshop(Path(name))
        work.rt(PROVED)
        yield Check("proved", work.prove("c"), (0, [
            HEAD, "1 of 3  a proved (T), T so far", "2 of 3  b is up to date, T so far",
            "3 of 3  c proved (T), T so far", "all proved, after T"]))
        yield Check("what rt was asked", work.asked(), ["lib in a", "lib in b", "run in c"])
        yield Check("the log", (work.folder / "prove.log").read_text().splitlines(), [
            "fn a::f: proved", "logic=proved functions=1", "rt: chose --jobs 2 for b", "logic=proved functions=2",
            "rt: running out/c; to give it other input", "refused 1"])
        work.rt(SLOWLY + PROVED)
        lines = work.at_a_terminal().replace("\r\n", "\n").split(prove.RENEW)
        yield Check("a terminal: where it stands", lines[2], "1 s: 0 of 4 crates done, at a")
        stay = [line.split(",")[0] for line in lines if line.endswith("\n")]
        yield Check("a terminal: lines that stay", stay[:2], ["4 crates", "1 of 4  a proved (1 s)"])
        yield Check("all crates", work.asked(), ["lib in a", "lib in b", "run in c", "lib in d"])
        work.rt(FAILED)
        (work.folder / "crates.txt").write_text(f"{CRATES}e:\n")
        yield Check("not proved", work.prove("c", "e"), (3, [
            HEAD.replace("3", "4", 1), "1 of 4  a proved (T), T so far", "2 of 4  b NOT PROVED (exit 3, T), T so far",
            "3 of 4  c is not tried, since b is not proved, T so far", "4 of 4  e proved (T), T so far",
            "not proved, after T; the end of what rt printed of it:",
            *(f"  line {at} of b" for at in range(13, 31)), "  logic=not-proved", "  the last word"]))
        yield Check("what is not tried", work.asked(), ["lib in a", "lib in b", "lib in e"])
        work.rt("kill -9 $$\n")
        yield Check("rt is killed", work.prove("c")[0], 137)
        work.rt("case $crate in c) exit 1;; esac\n")
        yield Check("a program that is not built", work.prove("c")[0], 1)
        work.rt(ENDLESS)
        for how, status in ((lambda child: child.stdout.close(), command.CLOSED_PIPE),
                            (lambda child: child.send_signal(signal.SIGINT), command.INTERRUPTED),
                            (lambda child: child.terminate(), 143)):
            yield Check(f"stopped with {status}", work.stopped(how), (status, False))
        yield Check("a closed pipe", closed_pipe(PROVE, "c", **work.options), (command.CLOSED_PIPE, b""))
        yield Check("no such crate", work.prove("cc"), (2, ["crates.txt has no crate 'cc'; did you mean 'c'?"]))
        ran = tool(PROVE, cwd=name, env={"PATH": str(work.folder / "crates")})
        yield Check("no rt", (ran.returncode, ran.stderr), (127, b"rt, the Rattle toolchain, is not installed: "
                                                            b"README.md says which version is needed\n"))
        (work.folder / "crates.txt").unlink()
        yield Check("no crates.txt", work.prove("c"), (1, [f"no crates.txt in {work.folder} or above it"]))
    yield from silence_checks()


def silence_checks() -> Iterator[Check]:
    """Not at a terminal, a silent rt leaves no half minute without a line."""
    out, now = io.StringIO(), [0.0]
    progress = prove.Progress(3, out, False, lambda: now[0])
    progress.begin("a")
    seen = [0.0]
    for second in range(1, 101):
        now[0] = float(second)
        before = out.tell()
        progress.stand()
        if out.tell() > before:
            seen.append(now[0])
    gaps = [after - before for before, after in zip(seen, [*seen[1:], 101])]
    yield Check("a line at least every 30 seconds", max(gaps) <= 30, True)
    yield Check("and not all the time", len(seen) < 10, True)
    yield Check("where it stands", out.getvalue().splitlines()[3:4], ["1 min 20 s: 0 of 3 crates done, at a"])
    crates = prove.read_crates((ROOT / "crates.txt").read_text())
    rivers = prove.rested_on(crates, ["river"])
    yield Check("river's crates", {"river", "model", "lists"} <= rivers < set(crates), True)
    yield Check("no library of the kit", {"io", "libc"} & prove.rested_on(crates, list(crates)), set())
    order = prove.in_order(crates, set(crates))
    yield Check("each crate behind what it names", [name for at, name in enumerate(order)
                                                    if not set(crates[name]) <= set(order[:at])], [])
    yield Check("every crate in order", sorted(order), sorted(crates))


# The run


def arguments() -> argparse.Namespace:
    parser = argparse.ArgumentParser(description="Tests the tools.")
    parser.add_argument("river", nargs="?", help="path of program river; crates/river/out/river if it is there")
    parser.add_argument("--full", action="store_true", help="run the program over the whole examples")
    return parser.parse_args()


def run_group(title: str, checks: Iterator[Check]) -> tuple[int, int]:
    """Runs a group; how many checks it had, and how many failed."""
    begin, count, failed = time.monotonic(), 0, 0
    for check in checks:
        count += 1
        if check.found != check.wanted:
            failed += 1
            if failed <= MOST_SHOWN:
                print(f"  {check.name}: {check.found!r}, not {check.wanted!r}")
    if count == 0:
        failed = 1
    print(f"{title}: {count} checks, {failed} failed ({time.monotonic() - begin:.1f} s)", flush=True)
    return count, failed


def main() -> int:
    asked = arguments()
    groups = [("units", unit_checks()), ("round trips", round_trip_checks()), ("commands", command_checks()),
              ("files", file_checks()), ("mistakes", mistake_checks()), ("any text", any_text_checks()),
              ("explanations", explain_checks()), ("bands", band_checks()), ("remedies", remedy_checks()),
              ("longest", longest_checks()),
              ("tables", table_checks()), ("pictures", picture_checks()), ("examples", example_checks()),
              ("documents", document_checks(asked.full)), ("proofs", proof_checks())]
    try:
        if asked.river or RIVER.exists():
            path = program_path(asked.river or str(RIVER))
            groups.append(("program", program_checks(path, asked.full)))
        else:
            print("no path is given and crates/river/out/river is not there: the program's listings are left out")
        totals = [run_group(title, checks) for title, checks in groups]
    except ProgramFault as fault:
        print(f"FAILED: {fault}")
        return 1
    failed = sum(failures for _, failures in totals)
    print(f"{sum(count for count, _ in totals)} checks, {failed} failed")
    print("FAILED" if failed else "passed")
    return 1 if failed else 0


if __name__ == "__main__":
    sys.exit(main())
