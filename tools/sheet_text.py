"""The text of a river sheet: lines with units for the header, tables for reaches, rows, gauges and bands.

docs/TOOLS.md describes the layout.  Every figure is exact: one that is not whole in
the sheet's unit is a mistake, unless it is marked with ~, which takes the nearest.
"""
from __future__ import annotations

import difflib
from collections.abc import Callable, Iterable, Iterator
from dataclasses import dataclass, field
from fractions import Fraction
from itertools import takewhile
from typing import NamedTuple, NoReturn, Optional

import explain
import otis_model as model
import units
from otis_model import BAND_MARK, FIELD, FLOW_MARK, HIGHEST_FLOW, MARK, Band, FlowRow, Header, Reach, Row, Sheet
from units import BAND_KINDS, HEADER_KINDS, REACH_KINDS, BadText, Quantity, Unit, about, in_unit, liked_unit, with_unit

HIGHEST_FIELD = 2 ** (8 * FIELD) - 1
NEAREST = "~"                       # before a figure: take the nearest whole one
ALL = "all"                         # in place of a reach's number
MAX = "max"                         # in place of a band's highest flow: the highest that a sheet has
Label = int | str                   # a reach's number, or `all`


class Column(NamedTuple):
    """What a name in the text stands for: a field of the sheet, given in a quantity, perhaps per dt or dx."""

    field: str
    kind: Quantity
    per: str = ""                   # "dt" or "dx": the figure is divided by it


HEADER_LINES = {
    "step": Column("dt", units.TIME),
    "segment length": Column("dx", units.LENGTH),
    "steps": Column("M", units.COUNT),
    "duration": Column("M", units.TIME, "dt"),
    "print every": Column("interval", units.COUNT),
    "flow at top": Column("top_flow", units.FLOW),
}
PRINT_TIME = Column("interval", units.TIME, "dt")
TABLES = {
    "reach": {name: Column(name, kind) for name, kind in REACH_KINDS.items()}
             | {"length": Column("segments", units.LENGTH, "dx")},
    "boundary": {"step": Column("start", units.COUNT), "from": Column("start", units.TIME, "dt"),
                 "concentration": Column("concentration", units.CONCENTRATION)},
    "gauge": {"segment": Column("segment", units.COUNT), "distance": Column("segment", units.LENGTH, "dx")},
    "flow": {"step": Column("start", units.COUNT), "from": Column("start", units.TIME, "dt"),
             "top": Column("top_flow", units.FLOW)},
    "band": {"reach": Column("reach", units.COUNT), "from": Column("from", units.FLOW)}
            | {name: Column(name, kind) for name, kind in BAND_KINDS.items()},
}
REPORT_NAMES = {"nseg": "segments", "rchlen": "length", "disp": "D", "area": "A", "area2": "AS", "qlatin": "qin",
                "qlatout": "qout", "clatin": "CL", "csback": "CB", "ustime": "from", "usbc": "concentration",
                "prtloc": "distance"}
READ_TABLES = (("segments", "D", "A", "AS", "ALPHA"), ("qin", "qout", "CL", "start"),
               ("LAMBDA", "LAMBDA2", "LAMHAT", "LAMHAT2", "RHO", "Kd", "CB"))


class Mistake(NamedTuple):
    """A mistake in a text, by its line; `number` is the test that refuses it, 0 where the text itself is wrong."""

    line: int
    words: str
    number: int = 0


class Cell(NamedTuple):
    """One figure as written: its line, its name in words, its value in its quantity's own unit."""

    line: int
    name: str
    text: str
    value: Fraction
    nearest: bool
    column: Column
    unit: Optional[Unit]            # nothing for a bare count


Records = dict[int, dict[str, Cell]]    # by their numbers, from 1 on


@dataclass
class Given:
    """What a text gives, before it is made into whole figures."""

    header: dict[str, Cell] = field(default_factory=dict)
    records: dict[str, Records] = field(default_factory=lambda: {kind: {} for kind in TABLES})
    every_reach: dict[str, Cell] = field(default_factory=dict)
    bands: dict[Label, Records] = field(default_factory=dict)
    tables: set[str] = field(default_factory=set)           # the kinds of tables that there are
    mistakes: list[Mistake] = field(default_factory=list)
    last_line: int = 1


class OpenTable(NamedTuple):
    """The table being read."""

    kind: str
    line: int
    names: list[str]
    factors: list[Fraction]             # empty until its line of units is read
    marks: list[str]


# Reading a text


class Reader:
    """Goes through a text line by line and collects figures and mistakes."""

    def __init__(self, text: str) -> None:
        self.given = Given()
        self.table: Optional[OpenTable] = None
        self.broken = False             # a table whose head is at fault: its rows are passed over
        self.line = 0
        for self.line, whole in enumerate(text.splitlines(), 1):
            words = whole.split("#", 1)[0].split()
            if words:
                try:
                    self.take(words)
                except BadText as bad:
                    self.mistake(str(bad))
        self.end_table()
        self.given.last_line = max(1, self.line)

    def mistake(self, words: str) -> None:
        self.given.mistakes.append(Mistake(self.line, words))

    def take(self, words: list[str]) -> None:
        """A line is the head of a table, its units, one of its rows, or a line of the header."""
        first = words[0].lower()
        if first in TABLES and not is_header(words):
            self.begin_table(first, words[1:])
        elif first in ("unit", "units") or is_label(first):
            if not self.broken:
                self.take_units(words[1:]) if first in ("unit", "units") else self.take_row(first, words[1:])
        else:
            self.end_table()
            self.take_header(words)

    def end_table(self) -> None:
        """The table being read, if there is one, ends here."""
        if self.table and not self.table.marks:
            self.mistake(f"the {self.table.kind} table of line {self.table.line} has no units and no rows")
        self.table, self.broken = None, False

    def give_up(self, words: str) -> NoReturn:
        """The head of a table is at fault."""
        self.table, self.broken = None, True
        raise BadText(words)

    def begin_table(self, kind: str, columns: list[str]) -> None:
        """The head of a table: what its rows are, then its columns."""
        self.end_table()
        self.given.tables.add(kind)
        if not columns:
            self.give_up(f"the {kind} table has no columns: after '{kind}' come some of {', '.join(TABLES[kind])}")
        self.table = OpenTable(kind, self.line, [self.column_name(kind, name) for name in columns], [], [])
        fields = [TABLES[kind][name].field for name in self.table.names if name]
        for name in sorted(set(fields)):
            if fields.count(name) > 1:
                self.give_up(f"the {kind} table gives {name} in two columns")
        if kind == "band" and "reach" not in fields:
            self.give_up(f"the band table has no column 'reach': each band has its reach's number there, or '{ALL}'")

    def column_name(self, kind: str, name: str) -> str:
        """A column's name as the table has it, or nothing when it is not known."""
        known = {each.lower(): each for each in TABLES[kind]}
        found = known.get(REPORT_NAMES.get(name.lower(), name).lower(), "")
        if not found:
            self.mistake(f"the {kind} table has no column '{name}'{close(name, TABLES[kind])}")
        return found

    def take_units(self, marks: list[str]) -> None:
        """The line below a table's head: one unit for each column."""
        table = self.table
        if table is None or table.marks:
            raise BadText("a line of units comes right below the head of a table")
        if len(marks) != len(table.names):
            self.give_up(f"{len(marks)} units for the {len(table.names)} columns of line {table.line}")
        factors = []
        for name, unit in zip(table.names, marks):
            try:
                factors.append(TABLES[table.kind][name].kind.factor(unit) if name else Fraction(1))
            except BadText as bad:
                self.mistake(f"column {name}: {bad}")
                factors.append(Fraction(1))
        self.table = table._replace(factors=factors, marks=marks)

    def take_row(self, label: str, words: list[str]) -> None:
        """A table's row: its number, then a figure for each column."""
        table = self.table
        if table is None:
            raise BadText(f"row {label} belongs to no table: "
                          "a table begins with 'reach', 'boundary', 'gauge', 'flow' or 'band'")
        if not table.marks:
            self.give_up(f"the {table.kind} table of line {table.line} wants its units before its rows: "
                         "write 'unit' and then a unit for each column (- for a count)")
        if label == ALL and table.kind != "reach":
            raise BadText(f"'{ALL}' is for reaches; a {table.kind} row has its number")
        if len(words) != len(table.names):
            raise BadText(f"{len(words)} figures for the {len(table.names)} columns of line {table.line}")
        if label == ALL:
            into, whose = self.given.every_reach, "every reach"
        else:
            records, whose = self.given.records[table.kind], f"{table.kind} {int(label)}"
            if table.kind == "band":
                reach = reach_label(words[table.names.index("reach")])
                records, whose = self.given.bands.setdefault(reach, {}), band_name(reach, int(label))
            into = records.setdefault(int(label), {})
        for name, factor, unit, text in zip(table.names, table.factors, table.marks, words):
            if name and name != "reach":
                self.put(into, TABLES[table.kind][name], f"{name} of {whose}", text, unit, factor)

    def take_header(self, words: list[str]) -> None:
        """A line of the header: its name, a figure and its unit."""
        length = next((length for length in range(len(words), 0, -1)
                       if " ".join(words[:length]).lower() in HEADER_LINES), 0)
        if length == 0:
            begin = " ".join(takewhile(lambda word: not word[0].isdigit(), words))
            raise BadText(f"'{begin}' is not known{close(begin.lower(), [*HEADER_LINES, *TABLES])}")
        name, rest = " ".join(words[:length]).lower(), words[length:]
        column = HEADER_LINES[name]
        if not 1 <= len(rest) <= 2:
            raise BadText(f"after '{name}' comes one figure and its unit")
        text, unit = rest[0], rest[1] if len(rest) == 2 else ""
        counted = unit in ("", "-", "step", "steps")
        if name == "print every" and not counted:
            column = PRINT_TIME
        if column.kind is units.COUNT:
            if not counted:
                raise BadText(f"'{name}' is a count and has no unit; a time goes with 'duration'")
            unit, factor = "", Fraction(1)
        elif unit:
            factor = column.kind.factor(unit)
        else:
            raise BadText(f"'{name}' wants a unit after the figure: one of {', '.join(column.kind.units)}")
        self.put(self.given.header, column, name, text, unit, factor)

    def put(self, into: dict[str, Cell], column: Column, name: str, text: str, unit: str,
            factor: Fraction) -> None:
        """Stores a figure under its field; a second one for the same field is a mistake."""
        if column.field in into:
            raise BadText(f"{name} is given a second time; line {into[column.field].line} has it already")
        nearest = text.startswith(NEAREST)
        try:
            value = (Fraction(HIGHEST_FLOW) if (column.field, text.lower()) == ("highest", MAX) else
                     units.number(text[len(NEAREST):] if nearest else text) * factor)
        except BadText as bad:
            self.mistake(f"{name}: {bad}")
            value = Fraction(0)
        counted = unit in ("", "-")
        into[column.field] = Cell(self.line, name, text if counted else f"{text} {unit}", value, nearest, column,
                                  None if counted else Unit(unit, factor))


def is_header(words: list[str]) -> bool:
    """A line of the header whose first word is also the head of a table: flow at top."""
    return any(line.split()[:2] == [word.lower() for word in words[:2]] for line in HEADER_LINES if " " in line)


def is_label(word: str) -> bool:
    """The number of a row, or `all`."""
    return word == ALL or (word.isascii() and word.isdigit())


def reach_label(word: str) -> Label:
    """Whose band it is, by what stands in its column `reach`."""
    if not is_label(word.lower()):
        raise BadText(f"'{word}' is not a reach: a band has its reach's number there, or '{ALL}'")
    return ALL if word.lower() == ALL else int(word)


def band_name(label: Label, number: int) -> str:
    return f"band {number} of every reach" if label == ALL else explain.band_name(label, number)


def close(name: str, known: object) -> str:
    """A hint at what a name may have meant."""
    found = difflib.get_close_matches(name, list(known), 1)
    return f"; did you mean '{found[0]}'?" if found else f"; known are {', '.join(known)}"


# Figures into a sheet


class Made(NamedTuple):
    """A sheet if one could be made, the mistakes, and what was rounded."""

    sheet: Optional[bytes]
    mistakes: list[Mistake]
    rounded: list[Mistake]


class Maker:
    """Turns what a text gives into whole figures, with the cell of each."""

    def __init__(self, given: Given) -> None:
        self.given = given
        self.mistakes: list[Mistake] = []
        self.rounded: list[Mistake] = []
        self.cells: dict[tuple[str, int, str], Cell] = {}
        self.sizes: dict[str, int] = {}             # dt and dx, once they are known

    def mistake(self, line: int, words: str) -> None:
        self.mistakes.append(Mistake(line, words))

    def unit_of(self, cell: Cell) -> Optional[Unit]:
        """The unit that a cell was written in, as explain.Written has it."""
        column = cell.column
        if cell.unit is None or (not column.per and units.spelled(cell.unit.name) == column.kind.own_unit):
            return None
        return cell.unit._replace(size=cell.unit.size / self.sizes[column.per]) if column.per else cell.unit

    def figure(self, cell: Cell) -> int:
        """The whole figure of a cell, in the sheet's unit."""
        column = cell.column
        kind = units.COUNT if column.per else column.kind
        own_unit = "" if kind is units.COUNT else f" {kind.own_unit}"
        value = cell.value
        if column.per:
            size = self.sizes[column.per]
            several = "steps" if column.per == "dt" else "segments"
            own_unit = f" {several} of {with_unit(size, HEADER_KINDS[column.per])}"
            if size == 0:
                self.mistake(cell.line, f"{cell.name} is {cell.text}, counted in{own_unit}")
                return 0
            value /= size
        unit = self.unit_of(cell)
        if value.denominator != 1:
            whole = model.nearest(value.numerator, value.denominator)
            exact = f"{cell.name} is {cell.text}, that is {about(value)}{own_unit}"
            if cell.nearest:
                self.rounded.append(Mistake(cell.line, f"{exact}; {whole:,} is taken"))
            else:
                if unit and kind not in (units.COUNT, units.RATE) and unit.size.denominator != 1:
                    exact += f" (1 {unit.name} is {about(unit.size)}{own_unit})"
                self.mistake(cell.line, f"{exact}: not a whole number. Write {NEAREST}{cell.text} "
                             f"to take the nearest, {explain.figure(whole, kind, unit)}")
            value = Fraction(whole)
        if value > HIGHEST_FIELD:
            self.mistake(cell.line, f"{cell.name} is {cell.text}: a field holds "
                         f"{explain.at_most(HIGHEST_FIELD, kind, unit)}{allowed_words(column.field, kind, unit)}")
            return 0
        return int(value)

    def header(self) -> Optional[Header]:
        """The header, or nothing where a line of it is missing."""
        cells = self.given.header
        for name in Header._fields:
            if name not in cells:
                lines = " or ".join(f"'{line}'" for line, column in HEADER_LINES.items() if column.field == name)
                self.mistake(self.given.last_line, f"the text has no line {lines}")
        if self.mistakes:
            return None
        figures = {}
        for name in Header._fields:                 # dt and dx come first: other figures are counted in them
            figures[name] = self.figure(cells[name])
            self.cells["header", 0, name] = cells[name]
            if name in ("dt", "dx"):
                self.sizes[name] = figures[name]
        return Header(**figures)

    def records(self, kind: str, fields: tuple[str, ...]) -> list[dict[str, int]]:
        """The records of one kind, numbered 1, 2, 3 and so on, each with all its fields."""
        records = self.given.records[kind]
        every = self.given.every_reach if kind == "reach" else {}
        if not records:
            several = "no row numbered 1" if kind in self.given.tables else "no table"
            self.mistake(self.given.last_line, f"the text has {several} for '{kind}'")
        found = []
        for number, cells in self.in_order(records, lambda at: f"{kind} {at}"):
            for name in sorted(set(cells) & set(every)):
                self.mistake(cells[name].line, f"{cells[name].name} is given a second time; "
                             f"line {every[name].line} has it for every reach")
            whole = every | cells
            missing = [name for name in fields if name not in whole]
            if missing:
                self.mistake(self.first_line(cells.values()), f"{kind} {number} has no {', '.join(missing)}: "
                             "no field may be missing, and 0 is written where there is none")
                return found
            found.append({name: self.figure(whole[name]) for name in fields})
            self.cells |= {(kind, number, name): whole[name] for name in fields}
        return found

    def first_line(self, cells: Iterable[Cell]) -> int:
        """The first line that has one of them."""
        return min((cell.line for cell in cells), default=self.given.last_line)

    def in_order(self, records: Records, name: Callable[[int], str]) -> Iterator[tuple[int, dict[str, Cell]]]:
        """The records by their numbers, up to the first number that is missing."""
        for number, (label, cells) in enumerate(sorted(records.items()), 1):
            if label != number:
                self.mistake(self.first_line(cells.values()), f"{name(label)} comes where {name(number)} is missing: "
                             "rows are numbered 1, 2, 3 and so on")
                return
            yield number, cells

    def bands(self) -> list[list[Band]]:
        """The bands of each reach: its own, or those of every reach; none where the text has none for it."""
        reaches, given = sorted(self.given.records["reach"]), self.given.bands
        first_lines = {label: self.first_line(cell for cells in records.values() for cell in cells.values())
                       for label, records in given.items()}
        for label, line in first_lines.items():
            if label != ALL and label not in reaches:
                self.mistake(line, f"reach {label} has bands here and no row in a reach table: "
                             f"the text has reaches 1 to {len(reaches)}")
            elif label != ALL and ALL in given:
                self.mistake(line, f"reach {label} has bands of its own here; "
                             f"line {first_lines[ALL]} has bands for every reach")
        return [self.bands_of(reach, reach if reach in given else ALL) for reach in reaches]

    def bands_of(self, reach: int, label: Label) -> list[Band]:
        """A reach's bands, of the rows with this label."""
        table, found = explain.table_of_bands(reach), []
        for number, cells in self.in_order(self.given.bands.get(label, {}), lambda at: band_name(label, at)):
            line, name = self.first_line(cells.values()), band_name(label, number)
            ends = ("from",) if "from" in cells else ("lowest", "highest")
            missing = [each for each in (*ends, "A", "D", "AS") if each not in cells]
            if missing:
                instead = "; 'from' may stand for lowest and highest" if set(missing) & set(ends) else ""
                self.mistake(line, f"{name} has no {', '.join(missing)}: no field may be missing{instead}")
            elif len(cells) > len(ends) + 3:
                self.mistake(line, f"{name} has 'from' and a lowest or highest flow too: 'from' stands alone, "
                             "and the band ends where the next higher one begins")
            else:
                self.cells |= {(table, number, each): cells.get(each) or cells["from"] for each in Band._fields}
                found.append({each: self.figure(cell) for each, cell in cells.items()})
        begins = sorted(figures.get("from", figures.get("lowest")) for figures in found)
        return [band_of(figures, begins) for figures in found]

    def make(self) -> Optional[bytes]:
        """The sheet's bytes, or nothing where the text is at fault."""
        header = self.header()
        if header is None:
            return None
        reaches = [Reach(**figures) for figures in self.records("reach", Reach._fields)]
        rows = [Row(**figures) for figures in self.records("boundary", Row._fields)]
        gauges = [figures["segment"] for figures in self.records("gauge", ("segment",))]
        flow_rows = []
        if "flow" in self.given.tables:
            flow_rows = [FlowRow(**figures) for figures in self.records("flow", FlowRow._fields)]
        bands = None
        if "band" in self.given.tables:
            bands = self.bands()
            flow_rows = flow_rows or [FlowRow(1, header.top_flow)]      # OTR3 wants a row: one that changes nothing
        self.mistakes, self.rounded = sorted(set(self.mistakes)), sorted(set(self.rounded))
        return None if self.mistakes else write_sheet(header, reaches, rows, gauges, flow_rows, bands)

    def line_of(self, fault: explain.Fault, found: Optional[Sheet]) -> int:
        """The line that a refusal lies in; of 10 to 12 the flow row's where its flow is the one at fault."""
        if fault.number == 3:
            return min(cell.line for (table, at, _), cell in self.cells.items()
                       if table == fault.field and at > explain.most_records(table))
        if fault.number == 5:
            return self.cells["header", 0, fault.field].line
        if fault.number == 7:
            return self.cells["reach", len(self.given.records["reach"]), "segments"].line
        kind, at = fault.place
        if fault.flow:
            return self.cells["flow", fault.flow, "top_flow"].line
        reach = explain.reach_of(found, at) if kind == "segment" else at
        if fault.band:
            return self.cells[explain.table_of_bands(reach), fault.band, fault.field if fault.field in Band._fields else "lowest"].line
        if kind == "segment":
            return self.cells["reach", reach, "D" if fault.number == 11 else "segments"].line
        kind = {6: "reach", 8: "boundary", 9: "gauge", 16: "flow"}[fault.number]
        return self.cells[kind, at, fault.field].line

    def written(self) -> explain.Written:
        """The unit of every field that was not written as the sheet holds it."""
        found = {where: self.unit_of(cell) for where, cell in self.cells.items()}
        return {where: unit for where, unit in found.items() if unit is not None}


def allowed_words(name: str, kind: Quantity, unit: Optional[Unit]) -> str:
    """What document 01 allows of a field, where that does not depend on others."""
    ranges = model.REACH_RANGES | model.header_ranges(model.MOST_STEPS) | model.BAND_RANGES | {
        "concentration": model.CONCENTRATION, "from": model.FLOW}
    kinds = REACH_KINDS | HEADER_KINDS | BAND_KINDS | {"concentration": units.CONCENTRATION, "from": units.FLOW}
    if name == "interval" or kinds.get(name) is not kind:       # a row's start is no reach's start figure
        return ""
    return f"; {explain.range_remedy(ranges[name], kind, unit)}"


def band_of(figures: dict[str, int], begins: list[int]) -> Band:
    """A band; one with `from` alone ends below the next flow at which a band of its reach begins."""
    if "from" not in figures:
        return Band(**figures)
    lowest = figures["from"]
    highest = next((begin - 1 for begin in begins if lowest < begin <= HIGHEST_FLOW), HIGHEST_FLOW)
    return Band(lowest, highest, figures["A"], figures["D"], figures["AS"])


def write_sheet(header: Header, reaches: list[Reach], rows: list[Row], gauges: list[int], flow_rows: list[FlowRow],
                bands: Optional[list[list[Band]]]) -> bytes:
    """The sheet's bytes: the mark, then all fields in order, counts before their records.

    It is OTR3 with bands, with a list for each reach, else OTR2 with flow rows.
    """
    fields = [*header, len(reaches), *(each for reach in reaches for each in reach),
              len(rows), *(each for row in rows for each in row), len(gauges), *gauges]
    if flow_rows:
        fields += [len(flow_rows), *(each for row in flow_rows for each in row)]
    for table in bands or ():
        fields += [len(table), *(each for band in table for each in band)]
    mark = BAND_MARK if bands is not None else FLOW_MARK if flow_rows else MARK
    return mark + b"".join(figure.to_bytes(FIELD, "little") for figure in fields)


def make(text: str) -> Made:
    """A sheet from its text.  A mistake with the number of a test is one that document 01 refuses."""
    given = Reader(text).given
    if given.mistakes:
        return Made(None, given.mistakes, [])
    maker = Maker(given)
    sheet = maker.make()
    if sheet is None:
        return Made(None, maker.mistakes, maker.rounded)
    refused = explain.faults(sheet, maker.written())
    found = model.walk(model.Walk(sheet)) if refused and refused[0].number > 4 else None
    mistakes = [Mistake(maker.line_of(fault, found), f"{fault.fact}; {fault.remedy} (refused {fault.number})",
                        fault.number) for fault in refused]
    return Made(sheet, mistakes, maker.rounded)


# A sheet into its text


def aligned(rows: list[list[str]], notes: list[str]) -> Iterator[str]:
    """Rows of cells in columns, each with a note behind it."""
    widths = [max(len(row[at]) for row in rows) for at in range(len(rows[0]))]
    for row, note in zip(rows, notes):
        cells = "  ".join(cell.ljust(width) for cell, width in zip(row, widths))
        yield f"{cells}  # {note}" if note else cells.rstrip()


def table(kind: str, columns: dict[str, tuple[Quantity, list[int]]], notes: list[str]) -> Iterator[str]:
    """A table of the text; reaches that are all alike stand in one row."""
    marks = [liked_unit(quantity, figures) for quantity, figures in columns.values()]
    cells = [[in_unit(each, quantity, unit) for each in figures]
             for (quantity, figures), unit in zip(columns.values(), marks)]
    body = [[str(number), *row] for number, row in enumerate(zip(*cells), 1)]
    alike = len(body) > 1 and all(row[1:] == body[0][1:] for row in body)
    if kind == "reach" and "segments" not in columns and alike:
        body, notes = [[ALL, *body[0][1:]]], [""]
    yield from aligned([[kind, *columns], ["unit", *marks], *body], ["", "", *notes])


def band_table(label: Label, bands: list[Band]) -> Iterator[str]:
    """The table of a reach's bands; without a band it is a head and its units."""
    ends = [band.highest for band in bands if band.highest != HIGHEST_FLOW]
    flow_unit = liked_unit(units.FLOW, [0, *(band.lowest for band in bands), *ends])       # one for both limits
    marks = {name: flow_unit if kind is units.FLOW else liked_unit(kind, [0, *(getattr(band, name) for band in bands)])
             for name, kind in BAND_KINDS.items()}
    rows = [["band", "reach", *marks], ["unit", "-", *marks.values()]]
    for number, band in enumerate(bands, 1):
        cells = {name: in_unit(figure, BAND_KINDS[name], marks[name]) for name, figure in band._asdict().items()}
        if band.highest == HIGHEST_FLOW:
            cells["highest"] = MAX
        rows.append([str(number), str(label), *cells.values()])
    yield from aligned(rows, [""] * len(rows))


def read_bands(bands: list[list[Band]]) -> list[str]:
    """A table for each reach that has bands; one for all where they are alike, or where none has any."""
    if not any(bands) or (len(bands) > 1 and all(table == bands[0] for table in bands)):
        return ["", *band_table(ALL, bands[0])]
    return [line for reach, table in enumerate(bands, 1) if table for line in ("", *band_table(reach, table))]


def read(sheet: bytes) -> str:
    """The text of a sheet that passes tests 1 to 4, whatever its figures; `make` gives the same bytes back."""
    found = model.walk(model.Walk(sheet))
    dt, dx, M, interval, _ = found.header
    lines = list(aligned([[name, with_unit(getattr(found.header, column.field), column.kind)]
                          for name, column in HEADER_LINES.items() if not column.per],
                         ["", "", explain.hours(dt * M), explain.hours(dt * interval), ""]))
    for names in READ_TABLES:
        columns = {name: (REACH_KINDS[name], [getattr(reach, name) for reach in found.reaches]) for name in names}
        lines += ["", *table("reach", columns, [""] * len(found.reaches))]
    starts, concentrations = [list(column) for column in zip(*found.rows)]
    lines += ["", *table("boundary", {"step": (units.COUNT, starts),
                                      "concentration": (units.CONCENTRATION, concentrations)},
                         [explain.hours(dt * start) for start in starts])]
    lines += ["", *table("gauge", {"segment": (units.COUNT, found.gauges)},
                         [explain.metres(dx * gauge) for gauge in found.gauges])]
    if found.flow_rows:
        starts, tops = [list(column) for column in zip(*found.flow_rows)]
        lines += ["", *table("flow", {"step": (units.COUNT, starts), "top": (units.FLOW, tops)},
                             [explain.hours(dt * start) for start in starts])]
    if model.has_bands(sheet):
        lines += read_bands(found.bands)
    return "".join(line + "\n" for line in lines)
