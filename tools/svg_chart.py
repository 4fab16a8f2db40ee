"""Line charts as SVG: panels one above the other, with axes, ticks, a legend, a limit line and bars below."""
from __future__ import annotations

import math
from collections.abc import Iterator
from typing import NamedTuple, Optional
from xml.sax.saxutils import escape, quoteattr

WIDTH, LEFT, RIGHT, TOP, BOTTOM = 860, 76, 164, 34, 52      # the plot lies inside these margins
LEAST_HEIGHT = 250                                          # of the plot itself
LEGEND_LINE = 19
COLOURS = ("#0072b2", "#d55e00", "#009e73", "#cc79a7", "#e69f00", "#56b4e9", "#555555", "#8b4513")
DASHES = ("", "7 3", "2 3", "9 3 2 3")                      # a new one after each round of colours
LIMIT_COLOUR = "#c00000"
BAR_ROW, BAR_HEIGHT, LEAST_BAR = 16, 8, 2
TIME_STEPS = (0.1, 0.2, 0.25, 0.5, 1, 2, 3, 4, 6, 12, 24)


class Bar(NamedTuple):
    """A stretch of x that is marked for one curve, and what it says when it is pointed at."""

    begin: float
    end: float
    words: str


class Line(NamedTuple):
    """One curve: its name in the legend, and its points; its bars, with a note behind them."""

    name: str
    points: list[tuple[float, float]]
    bars: tuple[Bar, ...] = ()
    bars_note: str = ""


class Panel(NamedTuple):
    """One chart; x runs over the same values in all panels of a picture."""

    title: str
    x_label: str
    y_label: str
    x_from: float                           # where the x axis begins
    lines: list[Line]
    limit: Optional[float] = None
    limit_name: str = ""
    bars_name: str = ""                     # what the bars show; without it there are none


def round_step(span: float, most: int) -> float:
    """1, 2 or 5 times a power of ten: the least that divides the span into at most so many parts."""
    power = 10.0 ** math.floor(math.log10(span / most))
    return next(size * power for size in (1, 2, 5, 10) if span <= size * power * most * (1 + 1e-9))


def hour_step(span: float, most: int) -> float:
    """A step that suits hours, where one is long enough."""
    return next((size for size in TIME_STEPS if span <= size * most), round_step(span, most))


def ticks(low: float, high: float, step: float) -> list[float]:
    """The multiples of a step from low to high."""
    first, last = math.ceil(low / step - 1e-9), math.floor(high / step + 1e-9)
    return [number * step for number in range(first, last + 1)]


def tick_text(value: float, step: float) -> str:
    places = max(0, -math.floor(math.log10(step) + 1e-9))
    if round(step, places) != step:
        places += 1
    return f"{value:.{places}f}"


def tag(name: str, text: str = "", inside: str = "", **attributes: object) -> str:
    """An element around a text or around other elements; _ in an attribute's name stands for -."""
    parts = "".join(f" {key.replace('_', '-')}={quoteattr(str(value))}"
                    for key, value in attributes.items() if value != "")
    content = escape(text) or inside
    return f"<{name}{parts}>{content}</{name}>" if content else f"<{name}{parts}/>"


class Frame:
    """Where a panel's values lie in the picture."""

    def __init__(self, panel: Panel, top: float, height: float) -> None:
        xs = [x for line in panel.lines for x, _ in line.points]
        ys = [y for line in panel.lines for _, y in line.points]
        self.left, self.right, self.top, self.bottom = LEFT, WIDTH - RIGHT, top + TOP, top + TOP + height
        self.low_x, self.high_x = panel.x_from, max(*xs, panel.x_from + 1e-9)
        highest = max([*ys, panel.limit or 0.0]) or 1.0
        self.y_step = round_step(highest, 6)
        self.high_y = self.y_step * math.ceil(highest / self.y_step * (1 + 1e-6))

    def x(self, value: float) -> float:
        return self.left + (value - self.low_x) / (self.high_x - self.low_x) * (self.right - self.left)

    def y(self, value: float) -> float:
        return self.bottom - value / self.high_y * (self.bottom - self.top)


def axes(frame: Frame, panel: Panel, hours: bool) -> Iterator[str]:
    """Grid, ticks with their figures, the names of the axes and the title."""
    x_step = (hour_step if hours else round_step)(frame.high_x - frame.low_x, 9)
    for value in ticks(frame.low_x, frame.high_x, x_step):
        x = f"{frame.x(value):.1f}"
        yield tag("line", x1=x, y1=frame.top, x2=x, y2=frame.bottom, stroke="#e4e4e4")
        yield tag("line", x1=x, y1=frame.bottom, x2=x, y2=frame.bottom + 5, stroke="#444444")
        yield tag("text", tick_text(value, x_step), x=x, y=frame.bottom + 19, text_anchor="middle")
    for value in ticks(0.0, frame.high_y, frame.y_step):
        y = f"{frame.y(value):.1f}"
        yield tag("line", x1=frame.left, y1=y, x2=frame.right, y2=y, stroke="#e4e4e4")
        yield tag("line", x1=frame.left - 5, y1=y, x2=frame.left, y2=y, stroke="#444444")
        yield tag("text", tick_text(value, frame.y_step), x=frame.left - 9, y=f"{frame.y(value) + 4:.1f}",
                  text_anchor="end")
    yield tag("path", d=f"M{frame.left} {frame.top}V{frame.bottom}H{frame.right}", fill="none", stroke="#444444")
    middle_x, middle_y = (frame.left + frame.right) / 2, (frame.top + frame.bottom) / 2
    yield tag("text", panel.x_label, x=middle_x, y=frame.bottom + 40, text_anchor="middle")
    yield tag("text", panel.y_label, x=0, y=0, text_anchor="middle",
              transform=f"translate(20 {middle_y}) rotate(-90)")
    yield tag("text", panel.title, x=frame.left, y=frame.top - 14, font_size=15, font_weight="bold")


def path(frame: Frame, points: list[tuple[float, float]]) -> str:
    """A curve's path; points on a level stretch are left out."""
    placed = [(f"{frame.x(x):.1f}", f"{frame.y(y):.1f}") for x, y in points]
    kept = [here for at, here in enumerate(placed)
            if not (0 < at < len(placed) - 1 and placed[at - 1][1] == here[1] == placed[at + 1][1])]
    return "M" + "L".join(f"{x} {y}" for x, y in kept)


def legend(frame: Frame, at: int, name: str, **look: object) -> Iterator[str]:
    """An entry of the legend: a piece of the line and its name."""
    y = frame.top + 8 + LEGEND_LINE * at
    yield tag("path", d=f"M{frame.right + 16} {y}h26", fill="none", **look)
    yield tag("text", name, x=frame.right + 48, y=y + 4)


def colour(at: int) -> str:
    """The colour of a panel's curve, by its place."""
    return COLOURS[at % len(COLOURS)]


def curves(frame: Frame, panel: Panel) -> Iterator[str]:
    """Each curve and the limit, with their entries in the legend."""
    for at, line in enumerate(panel.lines):
        look = dict(stroke=colour(at), stroke_width=1.8, stroke_dasharray=DASHES[at // len(COLOURS) % len(DASHES)])
        yield tag("path", d=path(frame, line.points), fill="none", stroke_linejoin="round", **look,
                  **{"class": "curve"})
        yield from legend(frame, at, line.name, **look)
    if panel.limit is not None:
        look = dict(stroke=LIMIT_COLOUR, stroke_width=1.2, stroke_dasharray="5 4")
        y = f"{frame.y(panel.limit):.1f}"
        yield tag("path", d=f"M{frame.left} {y}H{frame.right}", fill="none", **look, **{"class": "limit"})
        yield from legend(frame, len(panel.lines), panel.limit_name, **look)


def bars(frame: Frame, panel: Panel, top: float) -> Iterator[str]:
    """A row for each curve, with its name, its bars and their note."""
    yield tag("text", panel.bars_name, x=frame.left, y=top + BAR_ROW / 2, font_weight="bold")
    for at, line in enumerate(panel.lines):
        middle = top + BAR_ROW * (at + 1.5)
        yield tag("text", line.name, x=frame.left - 9, y=middle + 4, font_size=10, text_anchor="end")
        yield tag("line", x1=frame.left, y1=middle, x2=frame.right, y2=middle, stroke="#e4e4e4")
        for bar in line.bars:
            begin = frame.x(bar.begin)
            yield tag("rect", inside=tag("title", bar.words), x=f"{begin:.1f}", y=middle - BAR_HEIGHT / 2,
                      width=f"{max(frame.x(bar.end) - begin, LEAST_BAR):.1f}", height=BAR_HEIGHT, fill=colour(at),
                      **{"class": "bar"})
        if line.bars_note:
            yield tag("text", line.bars_note, x=frame.right + 8, y=middle + 4)


def picture(panels: list[Panel], hours: bool) -> str:
    """The SVG of some panels, one above the other."""
    body: list[str] = []
    top = 0.0
    for panel in panels:
        height = max(LEAST_HEIGHT, LEGEND_LINE * (len(panel.lines) + 1))
        frame = Frame(panel, top, height)
        body += [*axes(frame, panel, hours), *curves(frame, panel)]
        top = frame.bottom + BOTTOM
        if panel.bars_name:
            body += bars(frame, panel, top)
            top += BAR_ROW * (len(panel.lines) + 1.5)
    head = (f'<svg xmlns="http://www.w3.org/2000/svg" width="{WIDTH}" height="{top:.0f}" '
            f'viewBox="0 0 {WIDTH} {top:.0f}" font-family="Helvetica, Arial, sans-serif" font-size="12" '
            'fill="#222222">')
    return "\n".join([head, tag("rect", width=WIDTH, height=f"{top:.0f}", fill="#ffffff"), *body, "</svg>", ""])
