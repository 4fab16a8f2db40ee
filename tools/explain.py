"""Says in words why document 01 (or 02, requests 1, 2 and 6) refuses a sheet, or what an accepted sheet holds.

The verdict is always the model's; what is added here are the figures behind it,
the limit that they break, and what to change.
"""
from __future__ import annotations

from bisect import bisect_right
from collections.abc import Callable, Iterator, Mapping
from dataclasses import replace
from decimal import ROUND_CEILING, ROUND_FLOOR, ROUND_HALF_UP
from typing import NamedTuple, Optional

import otis_model as model
import units
from otis_model import (BAND_RANGES, FIELD, MARK, ONE_WHOLE, Band, Header, Numbers, Place, Range, Reach, Refusal, Sheet,
                        Walk)
from units import BAND_KINDS, HEADER_KINDS, REACH_KINDS, Quantity, Unit

TERMS = {
    "dt": "the step dt", "dx": "the segment length dx", "M": "the count of steps M",
    "interval": "the print interval", "top_flow": "the flow at the top", "segments": "segments",
    "D": "dispersion D", "A": "channel area A", "AS": "storage area AS", "ALPHA": "exchange rate ALPHA",
    "qin": "lateral inflow qin", "qout": "lateral outflow qout", "CL": "inflow concentration CL",
    "LAMBDA": "decay rate LAMBDA", "LAMBDA2": "decay rate in storage LAMBDA2", "LAMHAT": "sorption rate LAMHAT",
    "LAMHAT2": "sorption rate in storage LAMHAT2", "RHO": "sediment RHO", "Kd": "distribution coefficient Kd",
    "CB": "storage background CB", "start": "start figure", "lowest": "lowest flow", "highest": "highest flow"}


DT, DX = (model.header_ranges(1)[name] for name in ("dt", "dx"))
REACH_COUNT_AT = len(MARK) + FIELD * len(Header._fields)


class Section(NamedTuple):
    """A section of the sheet behind the header: a count, then its records."""

    table: str                      # of the text
    record: str
    records: str
    fields: tuple[str, ...]
    most: int
    least: int = 1
    document: str = "document 01"
    whose: str = ""                 # " of reach 2", where each reach has such a section

    def record_name(self, number: int) -> str:
        return f"{self.record} {number}{self.whose}"

    @property
    def count_name(self) -> str:
        return f"the count of {self.records}{self.whose}"


SECTIONS = (Section("reach", "reach", "reaches", Reach._fields, model.MOST_REACHES),
            Section("boundary", "boundary row", "boundary rows", ("start step", "concentration"), model.MOST_ROWS),
            Section("gauge", "gauge", "gauges", ("segment",), model.MOST_GAUGES))
FLOW_ROWS = Section("flow", "flow row", "flow rows", ("start step", "top flow"), model.MOST_FLOW_ROWS,
                    document="document 02")


def table_of_bands(reach: int) -> str:
    """The name of a reach's own table of bands."""
    return f"band of reach {reach}"


def band_section(reach: int) -> Section:
    return Section(table_of_bands(reach), "band", "bands", Band._fields, model.MOST_BANDS, 0, "document 02", f" of reach {reach}")


def band_name(reach: int, number: int) -> str:
    return band_section(reach).record_name(number)


def most_records(table: str) -> int:
    return next((section.most for section in (*SECTIONS, FLOW_ROWS) if section.table == table), model.MOST_BANDS)


def sections(sheet: bytes) -> Iterator[Section]:
    """A sheet's sections in order; bands, one for each reach, come behind a count of reaches that was in range."""
    yield from SECTIONS
    if model.has_flow_rows(sheet):
        yield FLOW_ROWS
    if model.has_bands(sheet):
        yield from (band_section(reach) for reach in range(1, model.field_at(sheet, REACH_COUNT_AT) + 1))


class Fault(NamedTuple):
    """One thing that is refused: test, place, the field (of 3 the table), the fact, a remedy, and the flow of 10 to 12."""

    number: int
    place: Place
    field: str
    fact: str
    remedy: str
    flow: int = 0                   # the number of its flow row; 0 is the top flow
    band: int = 0                   # the number of the band, of 19 or of the segment; 0 where there is none


# The units that a text gave its fields in, by table ("header", or a section's), number and field; those that were
# written as the sheet holds them are left out
Written = Mapping[tuple[str, int, str], Unit]


def also(value: int, unit: Optional[Unit], rounding: str = ROUND_HALF_UP) -> str:
    """A figure once more, in the unit that it was written in."""
    return "" if unit is None else f" ({units.about(value / unit.size, rounding)} {unit.name})"


def figure(value: int, kind: Quantity, unit: Optional[Unit] = None, rounding: str = ROUND_HALF_UP) -> str:
    """A figure as the sheet holds it, and in the unit that it was written in."""
    own = f"{value:,}" if kind is units.COUNT else f"{value:,} {kind.own_unit}"
    return own + also(value, unit, rounding)


def at_most(value: int, kind: Quantity, unit: Optional[Unit] = None) -> str:
    return f"at most {figure(value, kind, unit, ROUND_FLOOR)}"


def limits(allowed: Range, kind: Quantity, unit: Optional[Unit] = None) -> str:
    own = f"{allowed.low:,} to {figure(allowed.high, kind)}"
    return own if unit is None else f"{own} ({units.span(allowed.low, allowed.high, unit)})"


def share(part: float) -> str:
    """A fraction to six places, without idle zeros."""
    return f"{part:.6f}".rstrip("0").rstrip(".")


def hours(seconds: int) -> str:
    return f"{seconds / 3600:.6g} h"


def metres(centimetres: int) -> str:
    return f"{centimetres / 100:.6g} m"


def start_words(found: Sheet, start: int) -> str:
    """A step and its time."""
    return f"{start:,} ({hours(found.header.dt * start)})"


# Tests 1 to 4: the bytes


def mark_faults(sheet: bytes) -> Iterator[Fault]:
    if len(sheet) < len(MARK):
        fact = f"the sheet has {len(sheet)} bytes, fewer than the mark OTR1 alone"
    else:
        fact = f"the sheet starts with {sheet[:len(MARK)]!r}, not with OTR1, OTR2 or OTR3"
    yield Fault(1, None, "", fact, "check that the file is a river sheet; make it again from its text")


def section_at(sheet: bytes, at: int) -> tuple[Section, int]:
    """The section in which an offset behind the header lies, by the counts before it, and which of its fields that is."""
    begin = REACH_COUNT_AT
    for section in sections(sheet):
        fields = model.field_at(sheet, begin) * len(section.fields)
        number = (at - begin) // FIELD
        if number <= fields:
            return section, number
        begin += FIELD * (1 + fields)
    raise ValueError(f"no field at {at}")


def field_name(sheet: bytes, at: int) -> str:
    """Which field lies at an offset."""
    if at < REACH_COUNT_AT:
        return TERMS[Header._fields[(at - len(MARK)) // FIELD]]
    section, number = section_at(sheet, at)
    if number == 0:
        return section.count_name
    record, place = divmod(number - 1, len(section.fields))
    name = section.fields[place]
    return f"{TERMS.get(name, name)} of {section.record_name(record + 1)}"


def ended_at(sheet: bytes) -> int:
    """Where the walk from the front stops."""
    front = Walk(sheet)
    try:
        model.walk(front)
    except Refusal:
        pass
    return front.at


def end_faults(sheet: bytes) -> Iterator[Fault]:
    at = ended_at(sheet)
    inside = "inside" if len(sheet) > at else "before"
    yield Fault(2, None, "", f"the sheet ends after {len(sheet):,} bytes, {inside} {field_name(sheet, at)}",
                "the file was cut short, or a count on it is too high; make it again from its text")


def count_faults(sheet: bytes) -> Iterator[Fault]:
    at = ended_at(sheet) - FIELD
    section, _ = section_at(sheet, at)
    yield Fault(3, None, section.table, f"{section.count_name} is {model.field_at(sheet, at):,}",
                f"{section.document} allows {section.least} to {section.most} {section.records}")


def tail_faults(sheet: bytes) -> Iterator[Fault]:
    """Tests 2 and 4 go by whichever section is last."""
    end, (*_, last) = ended_at(sheet), sections(sheet)
    found = model.walk(Walk(sheet))
    behind = f"the last {last.record}{last.whose}"
    if model.has_bands(sheet) and not found.bands[-1]:
        behind = f"{last.count_name}, 0"
    remedy = f"take them off, or raise {last.count_name} if they are {last.records}"
    if not model.has_flow_rows(sheet):
        remedy += "; a sheet with flow rows is marked OTR2"
    elif not model.has_bands(sheet):
        remedy += "; a sheet with bands is marked OTR3"
    yield Fault(4, None, "", f"{len(sheet) - end:,} bytes follow {behind}, which ends at byte {end:,}", remedy)


# Tests 5 to 9, 16 and 19: ranges, rows, gauges and bands


def range_remedy(allowed: Range, kind: Quantity, unit: Optional[Unit]) -> str:
    return f"document 01 allows {limits(allowed, kind, unit)}"


def header_faults(found: Sheet, written: Written) -> Iterator[Fault]:
    for name, allowed in model.header_ranges(found.header.M).items():
        value, kind, unit = getattr(found.header, name), HEADER_KINDS[name], written.get(("header", 0, name))
        if not allowed.holds(value):
            remedy = range_remedy(allowed, kind, unit) + (f"; M is {allowed.high:,}" if name == "interval" else "")
            yield Fault(5, None, name, f"{TERMS[name]} is {figure(value, kind, unit)}", remedy)


def reach_faults(found: Sheet, written: Written) -> Iterator[Fault]:
    for at, reach in enumerate(found.reaches, 1):
        for name, allowed in model.REACH_RANGES.items():
            value, kind, unit = getattr(reach, name), REACH_KINDS[name], written.get(("reach", at, name))
            if not allowed.holds(value):
                yield Fault(6, ("reach", at), name, f"{TERMS[name]} of reach {at} is {figure(value, kind, unit)}",
                            range_remedy(allowed, kind, unit))


def length_faults(found: Sheet, written: Written) -> Iterator[Fault]:
    unit = written.get(("reach", len(found.reaches), "segments"))
    segments = model.segment_count(found.reaches)
    yield Fault(7, None, "segments", f"the reaches have {segments:,} segments together{also(segments, unit)}",
                f"document 01 allows {figure(model.MOST_SEGMENTS, units.COUNT, unit, ROUND_FLOOR)}: "
                "take longer or fewer segments")


def row_faults(found: Sheet, written: Written) -> Iterator[Fault]:
    M, rows = found.header.M, found.rows
    for at, (row, fault) in enumerate(zip(rows, model.row_faults(rows, M)), 1):
        if not fault:
            continue
        place, unit = ("row", at), written.get(("boundary", at, "start"))
        begins = f"boundary row {at} starts at step {figure(row.start, units.COUNT, unit)}"
        if at == 1 and row.start != 0:
            yield Fault(8, place, "start", begins, "the first row starts at step 0")
        if at > 1 and row.start <= rows[at - 2].start:
            yield Fault(8, place, "start", f"{begins}, which is not after row {at - 1}, "
                        f"at step {figure(rows[at - 2].start, units.COUNT, unit)}",
                        "starts rise strictly from row to row")
        if row.start > M:
            yield Fault(8, place, "start", f"{begins}, after the last step, {figure(M, units.COUNT, unit)}",
                        "a row starts at the last step at the latest")
        if not model.CONCENTRATION.holds(row.concentration):
            unit = written.get(("boundary", at, "concentration"))
            found_there = figure(row.concentration, units.CONCENTRATION, unit)
            yield Fault(8, place, "concentration", f"the concentration of boundary row {at} is {found_there}",
                        range_remedy(model.CONCENTRATION, units.CONCENTRATION, unit))


def gauge_faults(found: Sheet, written: Written) -> Iterator[Fault]:
    last = model.segment_count(found.reaches)
    gauges = found.gauges
    for at, (gauge, fault) in enumerate(zip(gauges, model.gauge_faults(gauges, last)), 1):
        if not fault:
            continue
        unit = written.get(("gauge", at, "segment"))
        stands = f"gauge {at} stands in segment {figure(gauge, units.COUNT, unit)}"
        if not 1 <= gauge <= last:
            yield Fault(9, ("row", at), "segment", stands,
                        f"the river has segments {limits(Range(1, last), units.COUNT, unit)}")
        if at > 1 and gauge <= gauges[at - 2]:
            yield Fault(9, ("row", at), "segment", f"{stands}, which is not below gauge {at - 1}, "
                        f"in segment {figure(gauges[at - 2], units.COUNT, unit)}",
                        "segment numbers rise strictly from gauge to gauge")


def flow_row_faults(found: Sheet, written: Written) -> Iterator[Fault]:
    M, rows = found.header.M, found.flow_rows
    for at, (row, fault) in enumerate(zip(rows, model.flow_row_faults(rows, M)), 1):
        if not fault:
            continue
        place, unit = ("row", at), written.get(("flow", at, "start"))
        begins = f"flow row {at} starts at step {figure(row.start, units.COUNT, unit)}"
        if row.start == 0:
            yield Fault(16, place, "start", begins, "a flow row starts at step 1 at the earliest; "
                        "the flow at the top holds before the first")
        if at > 1 and row.start <= rows[at - 2].start:
            yield Fault(16, place, "start", f"{begins}, which is not after flow row {at - 1}, "
                        f"at step {figure(rows[at - 2].start, units.COUNT, unit)}",
                        "starts rise strictly from row to row")
        if row.start > M:
            yield Fault(16, place, "start", f"{begins}, after the last step, {figure(M, units.COUNT, unit)}",
                        "a flow row starts at the last step at the latest")
        if not model.FLOW.holds(row.top_flow):
            unit = written.get(("flow", at, "top_flow"))
            found_there = figure(row.top_flow, units.FLOW, unit)
            yield Fault(16, place, "top_flow", f"the top flow of flow row {at} is {found_there}",
                        range_remedy(model.FLOW, units.FLOW, unit))


def band_faults(found: Sheet, written: Written) -> Iterator[Fault]:
    """What is wrong with a reach's bands; where their limits are no flows, not what these cover."""
    for reach, bands in enumerate(found.bands, 1):
        if model.bands_fault(bands):
            yield from band_field_faults(reach, bands, written)
            if all(model.FLOW.low <= band.lowest <= band.highest <= model.FLOW.high for band in bands):
                yield from cover_faults(reach, bands, written)


def band_field_faults(reach: int, bands: list[Band], written: Written) -> Iterator[Fault]:
    place = ("reach", reach)
    for number, band in enumerate(bands, 1):
        def unit(name: str) -> Optional[Unit]:
            return written.get((table_of_bands(reach), number, name))

        outside = [name for name, allowed in BAND_RANGES.items() if not allowed.holds(getattr(band, name))]
        for name in outside:
            kind = BAND_KINDS[name]
            yield Fault(19, place, name, f"{TERMS[name]} of {band_name(reach, number)} is "
                        f"{figure(getattr(band, name), kind, unit(name))}",
                        range_remedy(BAND_RANGES[name], kind, unit(name)), band=number)
        if band.lowest > band.highest and not {"lowest", "highest"} & set(outside):
            yield Fault(19, place, "highest", f"the highest flow of {band_name(reach, number)}, "
                        f"{figure(band.highest, units.FLOW, unit('highest'))}, is below its lowest, "
                        f"{figure(band.lowest, units.FLOW, unit('lowest'))}",
                        "the lowest flow of a band is at most the highest: exchange them", band=number)


BY_FROM = "give 'from' alone in the text"


def joined(words: list[str]) -> str:
    return " and ".join(filter(None, [", ".join(words[:-1]), words[-1]]))


def cover_faults(reach: int, bands: list[Band], written: Written) -> Iterator[Fault]:
    """Each stretch of flows that more than one band of a reach holds, or none."""
    place = ("reach", reach)

    def unit(number: int) -> Optional[Unit]:
        return written.get((table_of_bands(reach), number, "lowest"))

    def flows(stretch: Range, number: int) -> str:
        if stretch.low == stretch.high:
            return figure(stretch.low, units.FLOW, unit(number))
        return limits(stretch, units.FLOW, unit(number))

    def moved(verb: str, number: int, flow: int) -> str:
        """A cure: to begin or end a band at another flow."""
        return f"{verb} band {number} at {figure(flow, units.FLOW, unit(number))}"

    for stretch, numbers in model.stretches(bands):
        if len(numbers) > 1:
            held = [limits(Range(*bands[each - 1][:2]), units.FLOW, unit(each)) for each in numbers]
            fact = (f"bands {joined(list(map(str, numbers)))} of reach {reach} {'both' if len(numbers) == 2 else 'all'} hold "
                    f"{flows(stretch, numbers[-1])}: they go from {joined(held)}")
            cures = overlap_cures(bands, numbers, moved)
            advice = " or ".join([*cures, BY_FROM]) if cures else "take out all but one of them, or move their limits"
            yield Fault(19, place, "", fact, f"no flow is in two bands, and both limits belong to a band: {advice}",
                        band=numbers[-1])
        elif not numbers:
            before = next((each for each, band in enumerate(bands, 1) if band.highest == stretch.low - 1), 0)
            after = next((each for each, band in enumerate(bands, 1) if band.lowest == stretch.high + 1), 0)
            cures = [moved("end", before, stretch.high)] if before else []
            cures += [moved("begin", after, stretch.low)] if after else []
            cures += [BY_FROM] if before and after else ["write 'max' in the text"] if before else []
            yield Fault(19, place, "", f"no band of reach {reach} holds {flows(stretch, before or after)}",
                        f"bands hold every flow from 0 to {figure(model.HIGHEST_FLOW, units.FLOW)}: {' or '.join(cures)}",
                        band=before or after)


def overlap_cures(bands: list[Band], numbers: list[int], moved: Callable[[str, int, int], str]) -> list[str]:
    """How two bands with common flows come apart by one limit of one of them, and leave no flow out."""
    if len(numbers) > 2:
        return []
    one, other = sorted(numbers, key=lambda number: bands[number - 1])
    lower, upper = bands[one - 1], bands[other - 1]
    cures = []
    if lower.lowest < upper.lowest and lower.highest <= upper.highest:
        cures.append(moved("end", one, upper.lowest - 1))
    if lower.highest < upper.highest:
        cures.append(moved("begin", other, lower.highest + 1))
    return cures


# Tests 10 to 12: flows and half-step sums; the first flow at fault, and the lowest segment at fault with it


def with_flow(found: Sheet, row: int) -> Sheet:
    """The sheet with one of its flows alone: the top flow, 0, or a row's."""
    return replace(found, header=model.headers(found)[row], flow_rows=[])


def flow_at_fault(found: Sheet, number: int) -> int:
    """The first flow that a test, 10 to 12, refuses; no test before it refuses any."""
    for row in range(len(found.flow_rows) + 1):
        try:
            model.rivers_of(with_flow(found, row))
        except Refusal as refusal:
            if refusal.number == number:
                return row
    raise ValueError(f"no flow is refused {number}")


def top_unit(row: int, written: Written) -> Optional[Unit]:
    """The unit that the flow at the top was written in, for the top flow or a row's."""
    return written.get(("flow", row, "top_flow") if row else ("header", 0, "top_flow"))


def reach_of(found: Sheet, segment: int) -> int:
    """The number of the reach in which a segment lies."""
    for at, reach in enumerate(found.reaches, 1):
        segment -= reach.segments
        if segment <= 0:
            return at
    raise ValueError(f"no segment {segment}")


def band_holding(bands: list[Band], Q: int) -> int:
    """The number of the band that holds a flow; 0 where there is none."""
    return next((number for number, band in enumerate(bands, 1) if band.holds(Q)), 0)


def band_at(found: Sheet, segment: int, Q: int) -> int:
    """The number of a segment's band with this flow; 0 where its reach has none."""
    return band_holding(found.bands[reach_of(found, segment) - 1], Q)


def at_segment(found: Sheet, row: int, segment: int, band: int = 0) -> str:
    place = f"in segment {segment} (reach {reach_of(found, segment)}{f', band {band}' if band else ''})"
    if row == 0:
        return place
    return f"with flow row {row}, from step {start_words(found, found.flow_rows[row - 1].start)} on, {place}"


class Course(NamedTuple):
    """The river with one flow at the top: each segment's flow, and its reach and AD as they are at that flow."""

    header: Header
    Q: list[int]
    own: list[Reach]
    AD: list[tuple[int, int, int]]

    def numbers(self, dt: int) -> list[Numbers]:
        """The set of this flow, with this step."""
        return model.set_of(self.header._replace(dt=dt), self.own, self.Q, self.AD)


def course(found: Sheet, header: Header) -> Course:
    """With a header of the sheet's; its flows are in range, and 19 has passed."""
    Q = model.flows(header, model.reach_of_segments(found.reaches))
    own = model.reaches_at(found, Q)
    return Course(header, Q, own, model.dispersion_around(own))


def flow_faults(found: Sheet, row: int, segment: int, written: Written) -> Iterator[Fault]:
    flows = model.flows(model.headers(found)[row], model.reach_of_segments(found.reaches))
    flow, unit = flows[segment - 1], top_unit(row, written)
    top = f"the top flow of flow row {row}" if row else "the flow at the top"
    if flow < 0:
        remedy = (f"the outflow qout down to there takes more than the river has: lower it, "
                  f"or raise {top} by {figure(-min(flows), units.FLOW, unit, ROUND_CEILING)}")
    else:
        excess = figure(max(flows) - model.HIGHEST_FLOW, units.FLOW, unit, ROUND_CEILING)
        remedy = (f"a flow is {at_most(model.HIGHEST_FLOW, units.FLOW, unit)}: lower qin down to there, "
                  f"or {top} by {excess}")
    yield Fault(10, ("segment", segment), "",
                f"{at_segment(found, row, segment)} the flow is {figure(flow, units.FLOW, unit)}", remedy, row)


def dispersion_faults(found: Sheet, row: int, segment: int, written: Written) -> Iterator[Fault]:
    at = segment - 1
    header, Q, own, AD = course(found, model.headers(found)[row])
    dx, reach, band = header.dx, reach_of(found, segment), band_at(found, segment, Q[at])
    _, here, below = AD[at]
    remedies = []
    shorter = (here + below) // Q[at]
    if DX.holds(shorter) and Trial(found).refused_at(header._replace(dx=shorter), at, 1) is None:
        remedies.append(f"segments of {at_most(shorter, units.LENGTH, written.get(('header', 0, 'dx')))}")
    # D of the segment below moves with its own where both have it from one place
    alike = segment == len(own) or (reach, band) == (reach_of(found, segment + 1), band_at(found, segment + 1, Q[segment]))
    enough = -(-Q[at] * dx // (2 * own[at].A)) if alike else -((below - Q[at] * dx) // own[at].A)
    if model.REACH_RANGES["D"].holds(enough):
        whose = (table_of_bands(reach), band) if band else ("reach", reach)
        remedies.append(f"a dispersion D of at least {figure(enough, units.DISPERSION, written.get((*whose, 'D')), ROUND_CEILING)} "
                        f"in {band_name(reach, band) if band else f'reach {reach}'}")
    remedy = " or ".join(remedies) + " would do here" if remedies else "raise D"
    yield Fault(11, ("segment", segment), "D",
                f"{at_segment(found, row, segment, band)} Q × dx, {Q[at]:,} × {dx:,} = {Q[at] * dx:,} cm4/s, "
                f"exceeds AD own + AD below, {here:,} + {below:,} = {here + below:,} cm4/s",
                f"the segments are too long for the dispersion: {remedy}", row, band)


def longest_step(found: Sheet) -> int:
    """The longest dt for which a river, its flows in range, passes 12 with all, all else unchanged; 0 if none.

    It is found by halving, since a river that passes with a step passes with every shorter one: each sum has
    at most six terms and so lies within 3 parts of dt x its rate, and if it is above one whole with up to 3,600
    seconds, one second more adds some 300,000 parts.
    """
    courses = [course(found, header) for header in dict.fromkeys(model.headers(found))]     # flows alike have one set
    low, high = 0, DT.high + 1
    while high - low > 1:
        middle = (low + high) // 2
        over = any(part.over_one_whole() for each in courses for part in each.numbers(middle))
        low, high = (low, middle) if over else (middle, high)
    return low


class Trial:
    """A river put to tests 10 and 11 with other headers; 19 has passed."""

    def __init__(self, found: Sheet) -> None:
        self.gains = model.gains(model.reach_of_segments(found.reaches))
        self.bands: list[tuple[list[int], list[int]]] = []      # of each segment: flows from which on AD holds, and AD
        for reach, bands in zip(found.reaches, found.bands):
            rising = sorted((band.lowest, band.A * band.D) for band in bands) or [(0, reach.AD)]
            self.bands += [([low for low, _ in rising], [AD for _, AD in rising])] * reach.segments
        self.AD = None if any(found.bands) else [ADs[0] for _, ADs in self.bands]       # where no flow changes it

    def refused_at(self, header: Header, first: int = 0, count: Optional[int] = None) -> Optional[int]:
        """The segment, counted from 0, that they refuse of so many from the first on, or of all; nothing where they pass."""
        count = len(self.gains) if count is None else count
        around = slice(first, first + count + 1)                # the segment below has its AD too
        Q = model.flows_with(header, self.gains[around])
        try:
            if not (model.FLOW.holds(min(Q)) and model.FLOW.holds(max(Q))):     # else each flow holds
                model.test_flows([Q])
            AD = self.AD[around] if self.AD else [
                ADs[bisect_right(lows, flow) - 1] for (lows, ADs), flow in zip(self.bands[around], Q)]
            model.test_dispersion(header.dx, [Q[:count]], [list(zip(AD, AD, AD[1:] + AD[-1:]))])
        except Refusal as refusal:
            return first + refusal.place[1] - 1
        return None


def deciding_flows(found: Sheet, dx: int) -> list[Header]:
    """The header with this dx and each flow that may decide 10 and 11: without bands the lowest and the highest alone."""
    tops = sorted({header.top_flow for header in model.headers(found)})
    if not any(found.bands):
        tops = sorted({tops[0], tops[-1]})
    return [found.header._replace(dx=dx, top_flow=top) for top in tops]


def longest_segments(found: Sheet) -> int:
    """The longest dx for which the river passes 11 (and 10 before it), all else unchanged; 0 if there is none.

    Flows change with dx, and a river may pass with long segments where it does not with shorter ones: all lengths
    are tried, from the longest on.  The flow and segment that refused one mostly refuse the next, and are asked first.
    """
    trial = Trial(found)
    flow, segment = 0, 0
    for dx in range(DX.high, DX.low - 1, -1):
        headers = deciding_flows(found, dx)
        if trial.refused_at(headers[flow], segment, 1) is None:
            tried = ((at, trial.refused_at(header)) for at, header in enumerate(headers))
            refused = next((each for each in tried if each[1] is not None), None)
            if refused is None:
                return dx
            flow, segment = refused
    return 0


def sum_faults(found: Sheet, row: int, segment: int, written: Written) -> Iterator[Fault]:
    here = course(found, model.headers(found)[row])
    part, band = here.numbers(found.header.dt)[segment - 1], band_at(found, segment, here.Q[segment - 1])
    longest = longest_step(found)
    unit = written.get(("header", 0, "dt"))
    remedy = (f"with a step of {at_most(longest, units.TIME, unit)} the whole river passes" if longest else
              "no whole number of seconds is short enough: lower rates or dispersion, or take longer segments")
    for name, total, terms in (("T", part.T, "eglaks"), ("V", part.V, ("b", "ks", "m")), ("h", part.h, "h")):
        if total > ONE_WHOLE:
            numbers = ", ".join(f"{term} {share(getattr(part, term) / ONE_WHOLE)}" for term in terms)
            yield Fault(12, ("segment", segment), name,
                        f"{at_segment(found, row, segment, band)} {name} is {share(total / ONE_WHOLE)} of one whole, "
                        f"{total - ONE_WHOLE:,} parts too many ({numbers})", remedy, row, band)


BYTE_TESTS: dict[int, Callable[[bytes], Iterator[Fault]]] = {
    1: mark_faults, 2: end_faults, 3: count_faults, 4: tail_faults}
FIELD_TESTS: dict[int, Callable[[Sheet, Written], Iterator[Fault]]] = {
    5: header_faults, 6: reach_faults, 7: length_faults, 8: row_faults, 9: gauge_faults, 16: flow_row_faults,
    19: band_faults}
SEGMENT_TESTS: dict[int, Callable[[Sheet, int, int, Written], Iterator[Fault]]] = {
    10: flow_faults, 11: dispersion_faults, 12: sum_faults}


def faults(sheet: bytes, written: Written = {}) -> list[Fault]:
    """What breaks the first test that fails, the refusal's own place first; nothing when the sheet is accepted."""
    refusal = model.answer(sheet)
    if refusal is None:
        return []
    if refusal.number in BYTE_TESTS:
        return list(BYTE_TESTS[refusal.number](sheet))
    found = model.walk(Walk(sheet))
    if refusal.number in FIELD_TESTS:
        return list(FIELD_TESTS[refusal.number](found, written))
    row = flow_at_fault(found, refusal.number)
    return list(SEGMENT_TESTS[refusal.number](found, row, refusal.place[1], written))


# What is said of a sheet


def place_words(fault: Fault) -> str:
    """A refusal's place; a gauge's is its number in the list of gauges, a flow row's that among the flow rows."""
    if fault.place is None:
        return ""
    kind, at = fault.place
    return f", {({9: 'gauge', 16: 'flow row'}).get(fault.number, kind)} {at}"


def refusal_words(found: list[Fault]) -> str:
    first = found[0]
    lines = [f"refused {first.number}{place_words(first)}"]
    lines += [f"  {fault.fact}\n    {fault.remedy}" for fault in found]
    return "\n".join(lines)


class Margin(NamedTuple):
    """How near one of the flows comes to a limit, as a part of it, and where."""

    part: float
    row: int
    segment: int

    def words(self) -> str:
        return f"{share(self.part)} (segment {self.segment})"


def along(row: int, parts: list[float]) -> Margin:
    """The highest part along the river, and the first segment that has it."""
    top = max(parts)
    return Margin(top, row, parts.index(top) + 1)


class Nearness(NamedTuple):
    """How near one flow of an accepted sheet comes to what tests 11 and 12 allow, with the flows along the river."""

    Q: list[int]
    face: Margin
    sums: dict[str, Margin]


def nearnesses(found: Sheet) -> list[Nearness]:
    dx, made = found.header.dx, []
    for row, header in enumerate(model.headers(found)):
        here = course(found, header)
        face = along(row, [flow * dx / max(1, own + below) for flow, (_, own, below) in zip(here.Q, here.AD)])
        numbers = here.numbers(header.dt)
        sums = {name: along(row, [getattr(part, name) / ONE_WHOLE for part in numbers]) for name in ("T", "V", "h")}
        made.append(Nearness(here.Q, face, sums))
    return made


def margins(made: list[Nearness]) -> Iterator[str]:
    """How near the river comes to what tests 11 and 12 allow, of all its flows; the flow is named where it matters."""
    def first_highest(margins: list[Margin]) -> tuple[str, str]:
        found = max(margins, key=lambda margin: margin.part)
        same = len({share(margin.part) for margin in margins}) == 1
        flow = "" if same else f", flow row {found.row}" if found.row else ", the top flow"
        return share(found.part), f"(segment {found.segment}{flow})"

    part, place = first_highest([near.face for near in made])
    yield f"test 11: Q × dx is at most {part} of AD own + AD below {place}"
    sums = [f"{name} is at most {' '.join(first_highest([near.sums[name] for near in made]))}" for name in ("T", "V", "h")]
    yield f"test 12: of one whole, {', '.join(sums)}"


def flow_name(row: int) -> str:
    return f"flow row {row}" if row else "top flow"


def in_columns(rows: list[list[str]]) -> list[str]:
    widths = [max(len(row[at]) for row in rows) for at in range(len(rows[0]))]
    return ["   ".join(cell.ljust(width) for cell, width in zip(row, widths)).rstrip() for row in rows]


def flow_table(found: Sheet, made: list[Nearness]) -> list[str]:
    """A line for each flow: from when on it holds, and how near it comes to what tests 10 to 12 allow."""
    sums = ("T", "V") if any(found.bands) else ("T",)       # V changes with the band alone
    rows = [["flow", "from step", "at the top", "along the river (10)", "Q × dx (11)", *(f"{name} (12)" for name in sums)]]
    starts = [0, *(row.start for row in found.flow_rows)]
    for row, (start, header, near) in enumerate(zip(starts, model.headers(found), made)):
        low, high = min(near.Q), max(near.Q)
        rows.append([flow_name(row), start_words(found, start), figure(header.top_flow, units.FLOW),
                     f"{low:,} to {figure(high, units.FLOW)}", near.face.words(), *(near.sums[name].words() for name in sums)])
    return in_columns(rows)


class Run(NamedTuple):
    """Neighbouring segments of a reach in one band with one flow at the top, and their lowest and highest flow."""

    first: int
    last: int
    reach: int
    band: int                       # 0 where no band holds the flows
    flows: Range


def band_runs(found: Sheet, header: Header) -> list[Run]:
    """The segments of the reaches that have bands, in runs."""
    runs: list[Run] = []
    whose = [reach for reach, record in enumerate(found.reaches, 1) for _ in range(record.segments)]
    Q = model.flows(header, model.reach_of_segments(found.reaches))
    for segment, (reach, flow) in enumerate(zip(whose, Q), 1):
        bands = found.bands[reach - 1]
        band = band_holding(bands, flow)
        if runs and (runs[-1].last, runs[-1].reach, runs[-1].band) == (segment - 1, reach, band):
            low, high = runs[-1].flows
            runs[-1] = runs[-1]._replace(last=segment, flows=Range(min(low, flow), max(high, flow)))
        elif bands:
            runs.append(Run(segment, segment, reach, band, Range(flow, flow)))
    return runs


def band_table(found: Sheet) -> Iterator[str]:
    """Which band each segment is in with each flow: a line for each run of segments."""
    without = [str(reach) for reach, bands in enumerate(found.bands, 1) if not bands]
    if without:
        several = len(without) > 1
        yield (f"reach{'es' if several else ''} {joined(without)} {'have' if several else 'has'} no bands: "
               "A, D and AS are the reach's own with every flow")

    def from_to(low: int, high: int) -> str:
        return f"{low:,}" if low == high else f"{low:,} to {high:,}"

    rows = [["flow", "segments", "reach", "band", "its flows, mL/s", "flow there, mL/s"]]
    shown: dict[tuple[Run, ...], int] = {}
    for row, header in enumerate(model.headers(found)):
        runs = tuple(band_runs(found, header))
        like = shown.setdefault(runs, row)
        if like != row:
            rows.append([flow_name(row), f"as {flow_name(like)}", "", "", "", ""])
        for at, run in enumerate(runs if like == row else ()):
            band = found.bands[run.reach - 1][run.band - 1] if run.band else None
            rows.append(["" if at else flow_name(row), from_to(run.first, run.last), str(run.reach), str(run.band or "none"),
                         from_to(band.lowest, band.highest) if band else "", from_to(*run.flows)])
    yield from in_columns(rows)


def accepted_words(sheet: bytes) -> str:
    found = model.read_sheet(sheet)
    dt, dx, M, interval, top = found.header
    made = nearnesses(found)
    Q = made[0].Q
    gauges = ", ".join(f"{gauge} ({metres(gauge * dx)})" for gauge in found.gauges)
    flow_rows = f"{len(found.flow_rows)} flow rows, " if found.flow_rows else ""
    bands = f"{sum(map(len, found.bands))} bands, " if any(found.bands) else ""
    lines = [f"{len(found.reaches)} reaches, {len(Q):,} segments of {metres(dx)}: {metres(len(Q) * dx)}",
             f"{M:,} steps of {dt:,} s: {hours(dt * M)}",
             f"a line for each gauge every {interval:,} steps ({hours(dt * interval)})",
             f"flow {figure(top, units.FLOW)} at the top, {figure(Q[-1], units.FLOW)} in the last segment",
             f"{flow_rows}{bands}{len(found.rows)} boundary rows; gauges in segment {gauges}",
             *margins(made), *(flow_table(found, made) if found.flow_rows else [])]
    return "accepted\n" + "\n".join(f"  {line}" for line in lines)


def has_river(found: Sheet) -> bool:
    """The sheet has segments and flows: its reaches and its flows at the top are in range, its bands without fault."""
    return (all(model.FLOW.holds(header.top_flow) for header in model.headers(found))
            and model.segment_count(found.reaches) <= model.MOST_SEGMENTS
            and all(model.in_ranges(reach, model.REACH_RANGES) for reach in found.reaches)
            and not any(map(model.bands_fault, found.bands)))


def longest_words(found: Sheet) -> Iterator[str]:
    """The longest dx and dt that pass, each with all else unchanged; dt with that dx too, where dx must change."""
    if not has_river(found):
        top = "a flow at the top" if found.flow_rows else "the flow at the top"
        at_fault = f"the reaches, bands or {top} are at fault" if any(found.bands) else f"the reaches or {top} are out of range"
        yield f"the longest dx and dt: not to be told while {at_fault}"
        return
    dx = longest_segments(found)
    found_dx = f"{figure(dx, units.LENGTH)} ({metres(dx)})" if dx else f"none from {limits(DX, units.LENGTH)}"
    yield f"the longest dx for which the whole river passes 11, all else unchanged: {found_dx}"

    def step_words(river: Sheet) -> str:
        dt = longest_step(river)
        return figure(dt, units.TIME) if dt else f"none from {limits(DT, units.TIME)}"

    own, here = model.reach_of_segments(found.reaches), deciding_flows(found, found.header.dx)
    in_range = DX.holds(found.header.dx) and all(model.FLOW.holds(flow) for header in here
                                                 for flow in model.flows(header, own))
    found_dt = step_words(found) if in_range else "not to be told while dx or a flow is out of range"
    yield f"the longest dt for which the whole river passes 12, all else unchanged: {found_dt}"
    if dx and not (in_range and all(Trial(found).refused_at(header) is None for header in here)):
        other = replace(found, header=found.header._replace(dx=dx))
        yield f"the longest dt for which the whole river passes 12 with that dx: {step_words(other)}"


def words(sheet: bytes) -> str:
    """The refusal, or a summary of the accepted sheet; which bands its segments are in; how long dx and dt may be."""
    refused = faults(sheet)
    lines = [refusal_words(refused) if refused else accepted_words(sheet)]
    if not refused or refused[0].number not in BYTE_TESTS:
        found = model.walk(Walk(sheet))
        if any(found.bands) and (not refused or refused[0].number in SEGMENT_TESTS):
            lines += [f"  {line}" for line in band_table(found)]
        lines += [f"  {line}" for line in longest_words(found)]
    return "\n".join(lines)
