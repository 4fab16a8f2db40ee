"""Holds the header for C to the library, to the model and to the documents.

    python3 tests/test_header.py PATH_TO_ARCHIVE

tests/header.c, compiled against include/yumbaqel.h, prints every constant, enum number and field and puts every
helper to the library; what it prints must be what the model gives.  Limits, numbers and kinds are also put to the
library itself, declarations are compared with the library's source, and the refusals' comments with the documents.
Then wrong headers are made by single edits, and each of them must be caught in the same way.
The exit status is 0 only when the header agrees and every wrong one is caught.
"""
from __future__ import annotations

import argparse
import ctypes
import os
import random
import re
import shutil
import subprocess
import sys
import tempfile
import time
from collections import Counter
from collections.abc import Callable
from concurrent.futures import ThreadPoolExecutor
from dataclasses import replace
from pathlib import Path
from typing import Optional

import exact
import model
import sheets
import stack
from calls import Answer, Caller, Run, Tally
from forecasts import Live, Question, forecast, lend_room
from library import FIGURES, KINDS, ROOT, STRICT, BuildFault, Library, compiled, shared_object
from mirror import (LOADED, MACROS, NO_FLOW, OTHER_LISTS, REACH, ROW_LISTS, SETS, SHARED_WORDS, STATE_LISTS, Mirror,
                    commands, distinct_draft, with_flows_and_bands)
from model import (COLUMNS, HIGHEST, MOST_BLOCKS, MOST_FLOW_ROWS, MOST_REACHES, MOST_ROWS, MOST_SEGMENTS, MOST_STEPS,
                   SET, Row)
from pools import PoolCalls
from signatures import declaration, recorder_source, signatures
from wrong_headers import Header, Wrong, tokens

HEADER = ROOT / "include" / "yumbaqel.h"
PROGRAM = ROOT / "tests" / "header.c"
DOCUMENT = ROOT / "docs" / "01-scope.md"
REQUESTS = ROOT / "docs" / "02-change-requests.md"
PREFIX = "YUMBAQEL_"
MOST_SHOWN = 10                     # faults or survivors described
SHOWN_BY_NAMES = {"figure", "enum", "field"}    # the wrong headers that are nearly all caught so


def say(line: str) -> None:
    print(line, flush=True)


# What header.c must print of names and layout

U32, SIZE = ctypes.c_uint32, ctypes.c_size_t


def struct(name: str, *fields: tuple[str, type]) -> type[ctypes.Structure]:
    """A struct as C lays it out."""
    return type(name, (ctypes.Structure,), {"_fields_": list(fields)})


LIST = struct("yumbaqel_list", ("at", ctypes.POINTER(U32)), ("length", SIZE))
WIDE_LIST = struct("yumbaqel_wide_list", ("at", ctypes.POINTER(ctypes.c_uint64)), ("length", SIZE))
LOADED_STRUCT = struct("yumbaqel_loaded", *((name, U32) for name in LOADED))
SET_STRUCT = struct("yumbaqel_set", *((name, LIST) for name in SET), ("flow", U32))
SLOT_STRUCT = struct("yumbaqel_slot", *((name, U32) for name in model.Slot._fields))
TABLE_STRUCT = struct("yumbaqel_table", ("slots", SLOT_STRUCT * model.MOST_RIVERS))
REACH_STRUCT = struct("yumbaqel_reach", *((name, U32) for name in REACH))
CHECKED = (REACH_STRUCT, LOADED_STRUCT, TABLE_STRUCT)       # the header checks their size
STRUCTS = (
    *CHECKED, SLOT_STRUCT, LIST, WIDE_LIST, SET_STRUCT,
    struct("yumbaqel_river", ("sets", SET_STRUCT * len(SETS)), *((name, LIST) for name in (*OTHER_LISTS, *STATE_LISTS)),
           ("highest", LIST), ("upstream", U32), ("done", U32), ("p", WIDE_LIST), ("y", WIDE_LIST),
           ("loaded", LOADED_STRUCT), ("sheet", ctypes.POINTER(ctypes.c_uint8)), ("sheet_length", SIZE),
           *((name, LIST) for name in ROW_LISTS), ("rows", U32), ("sides", LIST)),
    struct("yumbaqel_shared", *((name, LIST) for name in STATE_LISTS), ("p", WIDE_LIST), ("y", WIDE_LIST),
           ("table", TABLE_STRUCT)),
    struct("yumbaqel_refusal", ("number", U32), ("kind", U32), ("place", U32)),
    struct("yumbaqel_figures", ("channel", U32), ("storage", U32), ("sediment", ctypes.c_uint64)),
)
REFUSALS = ("ACCEPTED", "MARK", "SHORT_SHEET", "COUNT", "LONG_SHEET", "HEADER", "REACH_FIELD", "SEGMENTS",
            "BOUNDARY_ROW", "GAUGE", "FLOW", "FACE", "SUM", "SHORT_LIST", "FIGURE", "STEPS_DONE", "FLOW_ROW",
            "NO_ROOM", "NOT_OPEN", "BAND", "NO_FORECAST")
KIND_NAMES = {"NOTHING": None, "REACH": "reach", "SEGMENT": "segment", "ROW": "row"}
TRIED = (1 + 2, 15 + 1, 16 + 1)     # the figures that a macro is tried on


def constants(library: Library, used: int) -> dict[str, int]:
    """By the model; the version is the library's, and the stack the next power of two above what was measured."""
    return {"VERSION": library.call("version"), "SCALE": model.ONE_WHOLE, "HIGHEST": HIGHEST,
            "MOST_SEGMENTS": MOST_SEGMENTS, "MOST_STEPS": MOST_STEPS, "MOST_HORIZON": MOST_STEPS,
            "MOST_REACHES": MOST_REACHES, "MOST_ROWS": MOST_ROWS, "MOST_GAUGES": model.MOST_GAUGES,
            "MOST_FLOW_ROWS": MOST_FLOW_ROWS, "MOST_BANDS": model.MOST_BANDS, "MOST_RIVERS": model.MOST_RIVERS,
            "BLOCKS": MOST_BLOCKS, "NO_FLOW": NO_FLOW, "LONGEST_SHEET": model.LONGEST_SHEET,
            "STACK": 1 << used.bit_length(), "SHARED_WORDS": SHARED_WORDS}


def wanted_names(right: dict[str, int]) -> list[str]:
    kinds = {name: number for number, name in KINDS.items()}
    lines = [f"number {PREFIX}{name} {figure}" for name, figure in right.items()]
    lines += [f"number {PREFIX}{name} {number}" for number, name in enumerate(REFUSALS)]
    lines += [f"number {PREFIX}{name} {kinds[kind]}" for name, kind in KIND_NAMES.items()]
    lines += [f"macro {PREFIX}{name} {tried} {entries(tried)}" for name, entries in MACROS.items() for tried in TRIED]
    lines += [f"type {each.__name__}_has_{ctypes.sizeof(each)}_bytes 1" for each in CHECKED]
    for each in STRUCTS:
        lines.append(f"struct {each.__name__} {ctypes.sizeof(each)}")
        lines += [f"field {each.__name__} {name} {getattr(each, name).offset} {getattr(each, name).size}"
                  for name, _ in each._fields_]
    return lines


def called_numbers(right: dict[str, int]) -> list[str]:
    """The calls that are lent nothing, as the recorder has them, and their results: six of these are constants too."""
    lines = []
    for name, constant in (("version", "VERSION"), ("most_rivers", "MOST_RIVERS"), ("most_blocks", "BLOCKS"),
                           ("most_bands", "MOST_BANDS"), ("most_steps", "MOST_STEPS"),
                           ("most_horizon", "MOST_HORIZON")):
        lines += [f" call yumbaqel_{name}", f"{name} {right[constant]}"]
    for steps in (0, 1, MOST_STEPS, sheets.HIGHEST_FIELD):
        lines += [f" call yumbaqel_most_off steps {steps}", f"most_off {steps} {exact.ALLOWED * steps}"]
    return lines


# Limits, numbers and kinds, put to the library


def answer_of(caller: Caller) -> Answer:
    """Number and kind of the latest answer, which the caller has compared with the model's."""
    number, kind = (caller.shelf.buffers[name].content()[0] for name in ("number", "kind"))
    return number, KINDS[kind]


class Situations:
    """Sheets and calls at fault in one way each, put to the library and to the model."""

    def __init__(self, library: Library) -> None:
        self.library = library
        self.good = distinct_draft()

    def load(self, given: sheets.Draft | bytes, room: int = MOST_SEGMENTS + 2, row: int = 0) -> Caller:
        sheet = given if isinstance(given, bytes) else sheets.write(given)
        caller = Caller(self.library, random.Random(1), Tally())
        caller.load(sheet, [room] * len(COLUMNS), MOST_REACHES + 2, "a situation", row)
        return caller

    def told(self, given: sheets.Draft | bytes, room: int = MOST_SEGMENTS + 2, row: int = 0) -> Answer:
        return answer_of(self.load(given, room, row))

    def pool(self) -> PoolCalls:
        return PoolCalls(self.library, random.Random(1), Tally())

    def opened(self, number: int) -> Answer:
        """An opening under this number where none is open."""
        pool = self.pool()
        pool.open(number, sheets.write(self.good), 5)
        return answer_of(pool)

    def started(self, highest: int) -> bool:
        """A start of the longest river with so many highest figures is accepted."""
        run = Run(self.library, random.Random(1), Tally(), sheets.write(sheets.still_reaches(MOST_SEGMENTS)), "")
        run.shelf.add("highest", [0] * highest)
        return run.start(run.n, 0, {})

    def opened_with(self, entries: int) -> bool:
        """An opening is accepted where each shared list is told to have so many entries."""
        return self.pool().open(1, sheets.write(self.good), 5, told=dict.fromkeys(FIGURES, entries))

    def foreseen(self, gauge: int, horizon: int) -> Answer:
        """A forecast of a river with as many steps as a sheet can have, from its start on; gauge 1 is above at once."""
        sheet = sheets.write(sheets.brook(dt=1, Q=0, M=MOST_STEPS))
        live = Live(self.library, random.Random(1), Tally(), sheet, model.State([7], [7], [7]), [7])
        forecast(live, 1, Question(gauge, 0, horizon), lend_room(random.Random(1), 1))
        return answer_of(live)

    def refusals(self) -> dict[str, Answer]:
        """What the library answers in the situation that each name of a refusal speaks of."""
        good, sheet = self.good, sheets.write(self.good)
        run = Run(self.library, random.Random(1), Tally(), sheet, "fractions")
        run.start(run.n, HIGHEST + 1, {})
        figure = answer_of(run)
        run.start(run.n, 0, {})
        for _ in range(good.header.M + 1):
            run.step(run.n, 0, good.header.M, {})
        pool = self.pool()
        pool.close(1)
        not_open = answer_of(pool)
        return {
            "ACCEPTED": self.told(good),
            "MARK": self.told(sheets.UNKNOWN_MARK + sheet[len(model.MARK):]),
            "SHORT_SHEET": self.told(sheet[:-1]),
            "COUNT": self.told(replace(good, rows=[])),
            "LONG_SHEET": self.told(sheet + b"\0"),
            "HEADER": self.told(good.with_header(dt=0)),
            "REACH_FIELD": self.told(good.with_reach(1, A=0)),
            "SEGMENTS": self.told(sheets.still_reaches(MOST_SEGMENTS, 1)),
            "BOUNDARY_ROW": self.told(replace(good, rows=[Row(0, 1), Row(0, 2)])),
            "GAUGE": self.told(replace(good, gauges=[good.segments + 1])),
            "FLOW": self.told(good.with_header(top_flow=0).with_reach(0, qin=0)),
            "FACE": self.told(good.with_reach(1, D=0)),
            "SUM": self.told(good.with_reach(1, LAMBDA=model.HIGHEST_RATE)),
            "SHORT_LIST": self.told(good, good.segments - 1),
            "FIGURE": figure,
            "STEPS_DONE": answer_of(run),
            "FLOW_ROW": self.told(good.with_flows((1, 0), (1, 0))),
            "NO_ROOM": self.opened(0),
            "NOT_OPEN": not_open,
            "BAND": self.told(sheets.plain_bands().with_table(1, sheets.GAP)),
            "NO_FORECAST": self.foreseen(2, 0),
        }

    def limit_holds(self, name: str, figure: int, used: int) -> bool:
        """Whether the library takes this figure and no more."""
        good, many = self.good, sheets.still_reaches(MOST_SEGMENTS)
        taken: Optional[Callable[[int], sheets.Draft]] = {
            "HIGHEST": lambda c: replace(good, rows=[Row(0, c)]),
            "MOST_SEGMENTS": lambda c: sheets.still_reaches(c - 1, 1),
            "MOST_STEPS": lambda c: many.with_header(M=c),
            "MOST_REACHES": lambda c: sheets.still_reaches(*[1] * c),
            "MOST_ROWS": lambda c: replace(many.with_header(M=MOST_STEPS), rows=[Row(at, 0) for at in range(c)]),
            "MOST_GAUGES": lambda c: replace(many, gauges=list(range(1, c + 1))),
            "MOST_FLOW_ROWS": lambda c: many.with_header(M=MOST_STEPS).with_flows(*((at, 0) for at in range(1, c + 1))),
            "MOST_BANDS": lambda c: sheets.plain_bands().with_table(2, sheets.bands_of(*sheets.seams(c))),
        }.get(name)
        if taken is not None:
            return self.told(taken(figure))[0] == 0 and self.told(taken(figure + 1))[0] != 0
        longest = sheets.write(sheets.fullest(random.Random(1)))
        if name == "MOST_RIVERS":
            return self.opened(figure)[0] == 0 and self.opened(figure + 1)[0] == 17
        if name == "MOST_HORIZON":
            return self.foreseen(1, figure)[0] == 0 and self.foreseen(1, figure + 1)[0] == 20
        if name == "BLOCKS":        # the fewest that serve the longest river
            return self.started(figure) and not self.started(figure - 1)
        if name == "SHARED_WORDS":  # the fewest that serve as three lists
            entries, over = divmod(figure, len(FIGURES))
            return over == 0 and self.opened_with(entries) and not self.opened_with(entries - 1)
        if name == "NO_FLOW":       # the first that no sheet has
            return self.told(longest, row=figure)[0] == 13 and self.told(longest, row=figure - 1)[0] == 0
        if name == "LONGEST_SHEET":
            return len(longest) == figure and self.told(longest)[0] == 0 and self.told(longest + b"\0")[0] == 4
        if name == "SCALE":         # T6: e is one whole
            return self.load(sheets.brook(dt=2, Q=1_000)).shelf.buffers["e"].content()[0] == figure
        if name == "VERSION":
            return self.library.call("version") == figure
        if name == "STACK":
            return figure // 2 <= used < figure and figure & (figure - 1) == 0
        raise KeyError(name)


# Headers under test


class Bench:
    """Compiles header.c against a header, runs it, and compares."""

    def __init__(self, archive: str, folder: Path) -> None:
        self.folder = folder
        self.signatures = signatures()
        self.shared = shared_object(archive, folder)
        (folder / "recorder.c").write_text(recorder_source(self.signatures))
        self.recorder = compiled(folder / "librecorder.so", "-shared", "-fPIC", "-O1", "-Wall", "-Werror",
                                 str(folder / "recorder.c"), "-Wl,--no-as-needed", self.shared)
        draft = distinct_draft()
        self.sheets = tuple(map(sheets.write, (draft, draft.with_reach(1, CB=HIGHEST + 1), with_flows_and_bands(draft))))
        self.commands = commands(draft)
        self.script = "".join(f"{command}\n" for command in self.commands).encode()
        self.files = [folder / name for name in ("good", "bad", "flows")]
        for file, sheet in zip(self.files, self.sheets):
            file.write_bytes(sheet)
        self.wanted = self.wanted_names = ""
        self.declarations = {name: tokens(declaration(each)) for name, each in self.signatures.items()}

    def expect(self, right: dict[str, int]) -> None:
        mirror = Mirror(self.signatures, self.sheets)
        for command in self.commands:
            mirror.do(command)
        names = sorted(wanted_names(right))
        self.wanted_names = "".join(f"{line}\n" for line in names)
        self.wanted = "".join(f"{line}\n" for line in (*sorted((*names, *called_numbers(right))), *mirror.lines))

    def build(self, text: str, folder: Path, words: tuple[str, ...] = ("gcc", "-std=c99")) -> Optional[str]:
        """The program against this header; nothing where it does not compile."""
        folder.mkdir(exist_ok=True)
        (folder / "yumbaqel.h").write_text(text)
        run = subprocess.run([*words, "-O0", *STRICT, f"-I{folder}", "-o", str(folder / "header"), str(PROGRAM),
                              "-x", "none", self.recorder], capture_output=True)
        return str(folder / "header") if run.returncode == 0 else None

    def output(self, program: str) -> str:
        """What it prints, the lines of names and layout sorted; nothing where it does not end well."""
        run = subprocess.run([program, *map(str, self.files)], input=self.script, capture_output=True, timeout=60)
        lines = run.stdout.decode(errors="replace").splitlines(keepends=True)
        front = next((at for at, line in enumerate(lines) if line.startswith("lend")), len(lines))
        return "".join((*sorted(lines[:front]), *lines[front:])) if run.returncode == 0 else ""

    def caught(self, number: int, wrong: Wrong) -> Optional[str]:
        """How a wrong header is caught, if it is; where names and layout can show it, these are printed alone first."""
        folder = self.folder / f"wrong{number}"
        parts = [((), self.wanted)]
        if wrong.kind in SHOWN_BY_NAMES:
            parts.insert(0, (("-DNAMES",), self.wanted_names))
        try:
            for words, wanted in parts:
                program = self.build(wrong.text, folder, ("gcc", "-std=c99", *words))
                if program is None:
                    return "compiling"
                if self.output(program) != wanted:
                    return "running"
            return None
        except subprocess.TimeoutExpired:
            return "running"
        finally:
            shutil.rmtree(folder)


def declarations_hold(header: Header, wanted: dict[str, list[str]]) -> bool:
    """Each function is declared as the library has it, names of parameters too, and no other."""
    return wanted == header.declared


def first_difference(found: str, wanted: str) -> str:
    command = "names"
    for here, there in zip(found.splitlines(), wanted.splitlines()):
        command = there if not there.startswith(" ") else command
        if here != there:
            return f"{command}: {here!r}, not {there!r}"
    return "one is longer" if len(found) != len(wanted) else "none"


def unknown_names(header: Header, printed: str) -> set[str]:
    """What the header has and header.c neither prints nor calls."""
    known = set(re.findall(r"^(?:number|macro|type|struct) (\w+)", printed, re.M))
    known |= {f"{struct}.{field}" for struct, field in re.findall(r"^field (\w+) (\w+)", printed, re.M)}
    functions = {each.name for each in (*header.exports, *header.helpers)} | {macro.name for macro in header.macros}
    called = {name for name in functions if re.search(rf"\b{name}\(", PROGRAM.read_text())}
    called |= {f"yumbaqel_{name}" for name in re.findall(r"^ call yumbaqel_(\w+)", printed, re.M)}
    return header.names() - known - called - set(header.enums)


def refusal_comments(header: Header) -> dict[int, str]:
    """The comment at each number of a refusal, as one line."""
    text = header.text[header.text.index("enum yumbaqel_number {"):header.text.index("enum yumbaqel_kind {")]
    return {int(number): " ".join(comment.split())
            for number, comment in re.findall(r"= (\d+),? +/\*(.*?)\*/", text, re.S)}


def document_refusals() -> dict[int, str]:
    """Document 01's, and those of document 02's requests 1, 3, 6 and 7."""
    text = DOCUMENT.read_text()
    plain = text[text.index("## Refusals"):text.index("## Promises")].replace("×", "x")
    found = {int(number): words for number, words in re.findall(r"^(\d+)\. (.*)$", plain, re.M)}
    for errors in re.findall(r"^[1367]\. .*Errors: (.*)$", REQUESTS.read_text(), re.M):
        for number, words in re.findall(r"(\d+), (.*?), (?:after|before) \d+[;.]", errors):
            found[int(number)] = f"{words[0].upper()}{words[1:]}."
    return found


NAMED = (                           # slips that a test of the calls alone does not see, by name
    ("half as many gauges", rf"(MOST_GAUGES) {model.MOST_GAUGES}\b", rf"\1 {model.MOST_GAUGES // 2}"),
    ("two refusal numbers exchanged", r"(FLOW = )10(.*FACE = )11", r"\g<1>11\g<2>10"),
    ("the two sets of a step exchanged", r"(YUMBAQEL_SET\()old(_set\), YUMBAQEL_SET\()new", r"\1new\2old"),
    ("the two sets of a step of the pool exchanged",
     r"(pool_step\(&told.*?YUMBAQEL_SET\()old(_set\), YUMBAQEL_SET\()new", r"\1new\2old"),
    ("a slot of another number", r"(slots\[number - )1(\]\.steps)", r"\g<1>2\2"),
    ("area and area2 exchanged", r"(uint32_t )area;(.*?uint32_t )area2;", r"\1area2;\2area;"),
    ("storage and sediment exchanged in a macro",
     r"(\(r\)->storage.at, \(r\)->storage.length), (\(r\)->sediment.at, \(r\)->sediment.length)", r"\2, \1"),
    ("a start told the length of another list for the highest figures",
     r"(yumbaqel_start\(&told.*?highest\.at, river->)highest", r"\1sediment"),
    ("a step told the length of another list for the highest figures",
     r"(yumbaqel_step\(&told.*?highest\.at, river->)highest", r"\1channel"),
    ("an opening lent the channel list for the highest figures",
     r"(pool_open\(&told.*?, river->)highest(\.at, river->)highest", r"\1channel\2channel"),
    ("a search in the wrong list",
     r"(yumbaqel_search\(&told.*?river->)channel(\.at, river->)channel", r"\1storage\2storage"),
    ("a search of the pool in the wrong list", r"(pool_search\(&told.*?shared->)channel(\.at)", r"\1sediment\2"),
    ("a search with its two lists exchanged",
     r"(river->channel\.at, river->channel\.length), (river->highest\.at, river->highest\.length)", r"\2, \1"),
    ("a search of another segment count", r"(yumbaqel_search\(&told.*?river->loaded\.)segments", r"\1steps"),
    ("a copy without the highest figures", r" +for [^\n]*HIGHEST_WORDS[^\n]*\n[^\n]*highest[^\n]*\n", r""),
    ("a copy that shares the highest figures", r" +yumbaqel_river_lend_highest\(river, segments, words[^\n]*\n", r""),
    ("a river of the pool without highest figures", r"(lend_highest\(river, )segments(, highest_words)", r"\g<1>0\2"),
    ("a copy that shares the river's room for forecasts", r" +yumbaqel_river_lend_sides\(copy, 0, words\);\n", r""),
    ("U and count of a forecast's copies exchanged", r"&\(r\)->upstream, &\(r\)->done", r"&(r)->done, &(r)->upstream"),
    ("a forecast told the length of another list for its sides", r"(\(r\)->sides\.at, \(r\)->)sides", r"\1channel"),
    ("a forecast of another segment count", r"(yumbaqel_forecast\(&told.*?river->loaded\.)segments", r"\1steps"),
    ("a forecast lent the copy's highest figures to read",
     r"(yumbaqel_forecast\(&told.*?, )river(->highest\.at, )river", r"\1copy\2copy"),
    ("a forecast with limit and horizon exchanged", r"(COPIES\(copy\), gauge, )limit, horizon", r"\1horizon, limit"),
    ("a forecast on a pool of the river's own lists",
     r"(pool_forecast\(&told.*?YUMBAQEL_FIGURES\()shared", r"\1river"),
)


def named(header: Header) -> list[Wrong]:
    """Each of these as a wrong header."""
    found = []
    for what, pattern, by in NAMED:
        text, count = re.subn(pattern, by, header.text, count=1, flags=re.S)
        if count != 1:
            raise BuildFault(f"the header has no place for: {what}")
        found.append(Wrong("named", what, text))
    return found


# The test


class Report:
    """Counts what was held, and says what does not hold."""

    def __init__(self) -> None:
        self.held = self.faults = 0

    def hold(self, holds: bool, what: str) -> None:
        self.held += 1
        if not holds:
            self.faults += 1
            if self.faults <= MOST_SHOWN:
                say(f"  {what}")

    def line(self, what: str) -> None:
        say(f"{what} ({self.held} held, {self.faults} faults)")


def hold_header(bench: Bench, header: Header, report: Report) -> None:
    """The header as it stands: read, compiled as C99 and, if there is a compiler, as C++, and run."""
    report.hold(declarations_hold(header, bench.declarations), "a declaration is not the library's")
    said, words = refusal_comments(header), document_refusals()
    report.hold(set(said) == set(words) == set(range(1, len(REFUSALS))), "a refusal has no comment")
    for number, comment in said.items():
        report.hold(words[number].startswith(comment), f"refusal {number} is not in the documents' words: {comment}")
    builds = {"C99": ("gcc", "-std=c99"), "optimised": ("gcc", "-std=c99", "-O2"),
              "names": ("gcc", "-std=c99", "-DNAMES")}
    if shutil.which("g++"):
        builds["C++"] = ("g++", "-x", "c++", "-std=c++11")
    for name, words in builds.items():
        program = bench.build(header.text, bench.folder / name, words)
        wanted = bench.wanted_names if name == "names" else bench.wanted
        printed = bench.output(program) if program else ""
        report.hold(program is not None, f"{name}: does not compile")
        report.hold(printed == wanted, f"{name}: {first_difference(printed, wanted)}")
    unknown = unknown_names(header, bench.wanted)
    report.hold(not unknown, f"header.c does not know {sorted(unknown)}")
    report.line(f"the header: {len(header.names())} names, {len(bench.commands)} commands, as {', '.join(builds)}")


def hold_behaviour(bench: Bench, right: dict[str, int], used: int, report: Report) -> None:
    """Limits, refusals and kinds by what the library answers; wrong figures would not pass either."""
    situations = Situations(Library(bench.shared))
    for name, figure in right.items():
        report.hold(situations.limit_holds(name, figure, used), f"{name} {figure} is not the library's")
        for other in {figure + 1, figure - 1, figure // 2}:
            report.hold(not situations.limit_holds(name, other, used), f"{name} {other} would pass")
    found = situations.refusals()
    for number, name in enumerate(REFUSALS):
        report.hold(found[name][0] == number, f"{name} is {number}, and the library answers {found[name][0]}")
    kinds = {kind for _, kind in found.values()}
    report.hold(kinds == set(KIND_NAMES.values()), f"the library answers the kinds {kinds}")
    report.line("limits, refusals and kinds put to the library")


def hold_edits(bench: Bench, header: Header, report: Report) -> None:
    """Every wrong header is caught: declarations by reading them, all others by compiling or running."""
    read = list(header.wrong_declarations())
    for wrong in read:
        report.hold(not declarations_hold(Header(wrong.text), bench.declarations), f"not caught: {wrong.edit}")
    edits = [*named(header), *header.wrong_headers()]
    with ThreadPoolExecutor(max_workers=os.cpu_count()) as workers:
        ways = list(workers.map(bench.caught, range(len(edits)), edits))
    for wrong, way in zip(edits, ways):
        report.hold(way is not None, f"not caught: {wrong.kind}, {wrong.edit}")
    unedited = Wrong("none", "the header itself", header.text)
    report.hold(bench.caught(len(edits), unedited) is None, "the header itself is caught after all others")
    for wrong, way in zip(edits[:len(NAMED)], ways):
        say(f"  {wrong.edit}: caught by {way}")
    for kind, count in Counter(wrong.kind for wrong in edits).items():
        here = Counter(way or "nothing" for wrong, way in zip(edits, ways) if wrong.kind == kind)
        shown = ", ".join(f"{way} {each}" for way, each in sorted(here.items()))
        say(f"  {kind}: {count} wrong headers, caught by {shown}")
    total = Counter(way or "nothing" for way in ways)
    report.line(f"{len(read) + len(edits)} wrong headers: {len(read)} declarations caught by reading, "
                f"{total['compiling']} by compiling, {total['running']} by running, {total['nothing']} not caught")


def main() -> int:
    parser = argparse.ArgumentParser(description="Holds the header for C to the library and the model.")
    parser.add_argument("archive", help="path of libyumbaqel.a")
    asked = parser.parse_args()
    report = Report()
    begin = time.monotonic()
    header = Header(HEADER.read_text())
    try:
        with tempfile.TemporaryDirectory(prefix="yumbaqel-") as name:
            bench = Bench(asked.archive, Path(name))
            used = stack.measured(asked.archive, Path(name))
            del used["stated"]
            right = constants(Library(bench.shared), max(used.values()))
            bench.expect(right)
            hold_header(bench, header, report)
            hold_behaviour(bench, right, max(used.values()), report)
            hold_edits(bench, header, report)
    except (BuildFault, OSError, subprocess.TimeoutExpired) as fault:
        say(f"FAILED: {fault}")
        return 1
    say(f"{time.monotonic() - begin:.0f} s")
    if report.faults:
        say(f"FAILED: {report.faults} faults")
        return 1
    say("passed")
    return 0


if __name__ == "__main__":
    sys.exit(main())
