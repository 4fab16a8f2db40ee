"""Shows a listing of program `river`: a table of peaks, a small plot for each gauge, and curves as SVG.

    crates/river/out/river < SHEET.otr | python3 tools/curves.py --sheet SHEET.otr -o CURVES.svg
    python3 tools/curves.py LISTING --dt 2 --limit "10 mg/L" --show channel storage

The listing has no times: they come from the sheet's step, or from --dt.  Times are those of the listing's lines,
so they are as coarse as its print interval.
"""
from __future__ import annotations

import argparse
import sys
from dataclasses import dataclass, field
from fractions import Fraction
from itertools import count
from typing import NamedTuple, Optional

import command
import otis_model as model
import svg_chart
import units

SHOWN = ("channel", "storage", "sediment")
SCALES = {"channel": ("ng/L", "µg/L", "mg/L"), "storage": ("ng/L", "µg/L", "mg/L"),
          "sediment": ("pg/g", "ng/g", "µg/g")}
PLOT_WIDTH, PLOT_HEIGHT = 66, 5
BLOCKS = " ▁▂▃▄▅▆▇█"
ASCII_BLOCKS = "     ####"
STILL_ABOVE = "still above at the end"
NEVER_ABOVE = "never above"


class BadListing(command.Stop):
    """A listing that is not understood, or one that says `refused`."""


@dataclass
class Gauge:
    """The lines of one gauge, by column."""

    segment: int
    steps: list[int] = field(default_factory=list)
    figures: dict[str, list[int]] = field(default_factory=lambda: {name: [] for name in SHOWN})


def read_listing(text: str) -> list[Gauge]:
    """The gauges of a listing, in its order."""
    lines = text.splitlines()
    if lines and lines[0].startswith("refused "):
        raise BadListing(f"the sheet was {lines[0]}; tools/sheet.py explain says why")
    if not lines or lines[0] != model.HEADING:
        raise BadListing(f"a listing begins with the line '{model.HEADING}'")
    if not lines[-1].startswith("done "):
        raise BadListing("the listing is not complete: its last line is not 'done' and the steps made")
    gauges: dict[int, Gauge] = {}
    for number, line in enumerate(lines[1:-1], 2):
        words = line.split()
        if len(words) != 2 + len(SHOWN) or not all(word.isascii() and word.isdigit() for word in words):
            raise BadListing(f"line {number} of the listing is not five whole numbers: '{line}'")
        step, segment, *figures = map(int, words)
        gauge = gauges.setdefault(segment, Gauge(segment))
        gauge.steps.append(step)
        for name, figure in zip(SHOWN, figures):
            gauge.figures[name].append(figure)
    if not gauges:
        raise BadListing("the listing has no line of figures")
    return list(gauges.values())


def least_apart(gauges: list[Gauge]) -> int:
    """The fewest steps between two lines of a gauge; 1 where no gauge has two."""
    return min((after - before for gauge in gauges for before, after in zip(gauge.steps, gauge.steps[1:])
                if after > before), default=1)


class Clock(NamedTuple):
    """Times of steps in a unit that suits the run; `start` is the time at step 0, in seconds."""

    dt: int
    start: float
    unit: str
    seconds: int
    decimals: int                           # enough to tell two lines of the listing apart

    @classmethod
    def for_run(cls, dt: int, gauges: list[Gauge], start_hour: Optional[float]) -> Clock:
        length, apart = dt * max(gauge.steps[-1] for gauge in gauges), dt * least_apart(gauges)
        unit = "h" if start_hour is not None or length > 3 * 3600 else "min" if length > 3 * 60 else "s"
        seconds = {"h": 3600, "min": 60, "s": 1}[unit]
        decimals = next(places for places in count(2) if apart * 10 ** places > seconds)
        return cls(dt, 3600 * (start_hour or 0.0), unit, seconds, decimals)

    @property
    def label(self) -> str:
        return f"{'time' if self.start else 'time since step 0'}, {self.unit}"

    def at(self, step: int) -> float:
        return (self.start + self.dt * step) / self.seconds

    def words(self, step: int) -> str:
        return f"{self.at(step):{'.4g' if self.unit == 's' else f'.{self.decimals}f'}} {self.unit}"


class Scale(NamedTuple):
    """The unit for the figures of one column, and how many of the listing's units it is."""

    unit: str
    size: int

    @classmethod
    def for_figures(cls, name: str, highest: int) -> Scale:
        """The largest unit in which the highest figure is at least 1."""
        power = max(at for at in range(3) if at == 0 or highest >= 1000 ** at)
        return cls(SCALES[name][power], 1000 ** power)

    def words(self, figure: int) -> str:
        return f"{figure / self.size:.5g} {self.unit}"

    def limit_words(self, limit: Fraction) -> str:
        """With up to nine digits: all of a limit in whole ng/L that a figure can be above."""
        return f"{units.about(Fraction(limit, self.size))} {self.unit}"


class Spell(NamedTuple):
    """A stretch of lines above a limit: its first step, and the first step not above any more if there is one."""

    begin: int
    until: Optional[int]


def spells(gauge: Gauge, name: str, limit: Fraction) -> list[Spell]:
    """Every spell above the limit at one gauge."""
    found: list[Spell] = []
    was_above = False
    for step, figure in zip(gauge.steps, gauge.figures[name]):
        above = figure > limit
        if above and not was_above:
            found.append(Spell(step, None))
        elif was_above and not above:
            found[-1] = found[-1]._replace(until=step)
        was_above = above
    return found


class Show:
    """A listing with what is needed to show it."""

    def __init__(self, gauges: list[Gauge], asked: argparse.Namespace) -> None:
        self.gauges = gauges
        self.names = asked.show
        self.title = asked.title
        self.limit = asked.limit
        self.dx: Optional[int] = None
        dt = asked.dt
        if asked.sheet:
            found = accepted_sheet(asked.sheet)
            dt, self.dx = found.header.dt, found.header.dx
            if [gauge.segment for gauge in gauges] != found.gauges:
                raise BadListing(f"the listing's gauges are not those of {command.source(asked.sheet)}")
        self.clock = Clock.for_run(dt, gauges, asked.clock)
        self.scales = {name: Scale.for_figures(name, max([*(max(gauge.figures[name]) for gauge in gauges),
                                                          self.limit_of(name) or 0])) for name in self.names}

    def limit_of(self, name: str) -> Optional[Fraction]:
        """The limit is one for the channel."""
        return self.limit if name == "channel" else None

    def gauge_name(self, gauge: Gauge) -> str:
        return f"segment {gauge.segment}" if self.dx is None else f"{gauge.segment * self.dx / 100:g} m"

    # The table

    def table(self, name: str) -> list[str]:
        """For each gauge its peak and when it is first there; with a limit, a row for each spell above it."""
        scale, limit = self.scales[name], self.limit_of(name)
        rows = [["gauge", f"peak, {name}", "first at"]]
        if limit is not None:
            rows[0] += [f"above {scale.limit_words(limit)} from", "until"]
        for gauge in self.gauges:
            peak = max(gauge.figures[name])
            at = gauge.steps[gauge.figures[name].index(peak)]
            rows.append([self.gauge_name(gauge), scale.words(peak), self.clock.words(at)])
            if limit is not None:
                first, *more = [[self.clock.words(spell.begin),
                                 STILL_ABOVE if spell.until is None else self.clock.words(spell.until)]
                                for spell in spells(gauge, name, limit)] or [[NEVER_ABOVE, ""]]
                rows[-1] += first
                rows += [[self.gauge_name(gauge), "", "", *times] for times in more]
        widths = [max(len(row[at]) for row in rows) for at in range(len(rows[0]))]
        return ["   ".join(cell.rjust(width) for cell, width in zip(row, widths)).rstrip() for row in rows]

    # A plot in text

    def plot(self, gauge: Gauge, name: str, blocks: str) -> list[str]:
        """Columns of blocks, each the highest figure of its stretch of time; one scale for all gauges."""
        scale = self.scales[name]
        highest = max(max(each.figures[name]) for each in self.gauges) or 1
        first, last = gauge.steps[0], gauge.steps[-1]
        columns: list[Optional[int]] = [None] * PLOT_WIDTH
        for step, figure in zip(gauge.steps, gauge.figures[name]):
            at = (step - first) * PLOT_WIDTH // (last - first + 1)
            columns[at] = max(figure, columns[at] or 0)
        filled: list[int] = []
        for column in columns:                      # a stretch without a line is like the one before it
            filled.append(column if column is not None else filled[-1])
        levels = [model.nearest(figure * PLOT_HEIGHT * 8, highest) for figure in filled]
        label = f"{self.gauge_name(gauge)}, {name}"
        lines = [f"{label}, up to {scale.words(max(gauge.figures[name]))}"]
        for row in range(PLOT_HEIGHT - 1, -1, -1):
            mark = scale.words(highest) if row == PLOT_HEIGHT - 1 else f"0 {scale.unit}" if row == 0 else ""
            bars = "".join(blocks[max(0, min(8, level - 8 * row))] for level in levels)
            lines.append(f"{mark:>12} |{bars.rstrip()}")
        ends = self.clock.words(first), self.clock.words(last)
        return [*lines, " " * 13 + f"{ends[0]}{ends[1].rjust(PLOT_WIDTH + 1 - len(ends[0]))}"]

    # Curves

    def svg(self) -> str:
        panels = []
        for name in self.names:
            scale, limit = self.scales[name], self.limit_of(name)
            lines = []
            for gauge in self.gauges:
                points = [(self.clock.at(step), figure / scale.size)
                          for step, figure in zip(gauge.steps, gauge.figures[name])]
                line = svg_chart.Line(self.gauge_name(gauge), points)
                lines.append(line if limit is None else self.with_bars(line, gauge, spells(gauge, name, limit)))
            panel = svg_chart.Panel(f"{self.title}: {name}" if self.title else name.capitalize(), self.clock.label,
                                    f"{name} concentration, {scale.unit}", self.clock.at(0), lines)
            if limit is not None:
                words = scale.limit_words(limit)
                panel = panel._replace(limit=float(limit / scale.size), limit_name=f"limit {words}",
                                       bars_name=f"above {words}")
            panels.append(panel)
        return svg_chart.picture(panels, self.clock.unit == "h")

    def with_bars(self, line: svg_chart.Line, gauge: Gauge, found: list[Spell]) -> svg_chart.Line:
        """A curve with a bar for each spell above the limit."""
        bars = []
        for spell in found:
            last = gauge.steps[-1] if spell.until is None else spell.until
            words = f"{line.name}: above from {self.clock.words(spell.begin)}, " + (
                STILL_ABOVE if spell.until is None else f"until {self.clock.words(spell.until)}")
            bars.append(svg_chart.Bar(self.clock.at(spell.begin), self.clock.at(last), words))
        note = NEVER_ABOVE if not found else STILL_ABOVE if found[-1].until is None else ""
        return line._replace(bars=tuple(bars), bars_note=note)


def accepted_sheet(path: str) -> model.Sheet:
    try:
        return model.read_sheet(command.given(path))
    except model.Refusal as refusal:
        raise command.Stop(f"{command.source(path)} is refused {refusal.number}; "
                           "tools/sheet.py explain says why") from refusal


def limit_figure(text: str) -> Fraction:
    """A limit such as '10 mg/L', in ng/L."""
    begin = units.NUMBER.match(text)
    try:
        if begin is None:
            raise units.BadText(f"'{text}' is not a concentration such as '10 mg/L'")
        unit = text[begin.end():].strip()
        if not unit:
            known = ", ".join(units.CONCENTRATION.units)
            raise units.BadText(f"'{text}' has no unit: write one of {known} after the figure, as in '10 mg/L'")
        return units.number(begin[0]) * units.CONCENTRATION.factor(unit)
    except units.BadText as bad:
        raise argparse.ArgumentTypeError(str(bad)) from bad


def seconds(text: str) -> int:
    if not (text.isascii() and text.isdigit() and int(text) > 0):
        raise argparse.ArgumentTypeError(f"'{text}' is not a whole number of seconds")
    return int(text)


def arguments() -> argparse.Namespace:
    parser = argparse.ArgumentParser(description="Shows a listing of program `river`: table, plots and curves.")
    parser.add_argument("listing", nargs="?", default="-", help="the listing; standard input if none is named")
    times = parser.add_mutually_exclusive_group(required=True)
    times.add_argument("--sheet", help="the listing's sheet: gives the step, and gauges in metres")
    times.add_argument("--dt", type=seconds, help="the step in seconds")
    parser.add_argument("-o", "--output", help="write the curves here, as SVG; with - nothing else is printed")
    parser.add_argument("--show", nargs="+", choices=SHOWN, default=["channel"], help="what to show")
    parser.add_argument("--limit", type=limit_figure, help="a limit for the channel, with its unit: '10 mg/L'")
    parser.add_argument("--clock", type=float, help="the hour at step 0; times are shown on that clock")
    parser.add_argument("--title", default="", help="title of the curves")
    parser.add_argument("--no-plot", action="store_true", help="print the table alone")
    asked = parser.parse_args()
    if asked.limit is not None and "channel" not in asked.show:
        parser.error("--limit is a limit for the channel, and --show leaves the channel out")
    if asked.listing == asked.sheet == "-":
        parser.error("the listing and its sheet cannot both come from standard input")
    return asked


def main() -> int:
    asked = arguments()
    show = Show(read_listing(command.given_text(asked.listing)), asked)
    if asked.output:
        command.put(asked.output, show.svg().encode("utf-8"))
    if asked.output == "-" or not sys.stdout:
        return 0
    unicode = (sys.stdout.encoding or "").lower().startswith("utf")
    out: list[str] = []
    for name in show.names:
        out += [*show.table(name), ""]
        if not asked.no_plot:
            for gauge in show.gauges:
                out += [*show.plot(gauge, name, BLOCKS if unicode else ASCII_BLOCKS), ""]
    if asked.output:
        out.append(f"curves written to {asked.output}")
    text = "\n".join(out).rstrip("\n")
    print(text if unicode else text.replace("µ", "u"))
    return 0


if __name__ == "__main__":
    command.run(main)
