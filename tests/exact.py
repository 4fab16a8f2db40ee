"""The exact river: the three equations of all segments together, solved in fractions.

ExactRiver keeps every figure as a Fraction and puts each solution back into the
equations.  Its denominators grow with every step, so it is for few segments and
few steps.  BracketedRiver keeps a lower and an upper bound of each exact figure,
every operation rounded outwards, and goes on for as long as one likes.  Both take
the pair of sets of each step from the sheet.
"""
from __future__ import annotations

import math
from collections.abc import Callable
from fractions import Fraction
from typing import NamedTuple, Union

import model
from model import ONE_WHOLE, Numbers, Pair, Segment

ALLOWED = 6                 # distance allowed for each step made since the start
PLACES = 128                # binary places of a bracket's bounds

Figure = Union[int, Fraction]
Divide = Callable[[int, int], int]


class NoSolution(ArithmeticError):
    """Figures that do not solve the equations: a fault of the solver, not of a river."""


class Bounds(NamedTuple):
    """An exact figure lies from low to high; for fractions the two are the same."""

    low: Fraction
    high: Fraction


class Course:
    """What the exact rivers take from an accepted sheet: its segments with each flow's set, and the steps' pairs."""

    def __init__(self, found: model.Sheet) -> None:
        self.rivers = model.rivers_of(found)
        self.starts = [row.start for row in found.flow_rows]

    @property
    def river(self) -> list[Segment]:
        """With the top flow's set; what is not of a set is the same for all flows."""
        return self.rivers[0]

    def flow(self, number: int) -> int:
        """A row's flow begins to hold at the end of its step: its new side is the first to have it."""
        return max((row for row, start in enumerate(self.starts, 1) if start <= number), default=0)

    def pairs(self, number: int) -> list[Pair]:
        """The pair of a step, for each segment: the old side has the flow at the end of the step before."""
        old, new = self.rivers[self.flow(number - 1)], self.rivers[self.flow(number)]
        return [Pair(before.numbers, after.numbers, after.CL, after.CB) for before, after in zip(old, new)]


def residuals(pair: Pair, old: tuple[Figure, Figure, Figure], new: tuple[Figure, Figure, Figure],
              above: Figure, new_above: Figure, below: Figure, new_below: Figure) -> list[Figure]:
    """Left side, by the new set, less right side, by the old, of the three equations of one segment."""
    S, was, now = ONE_WHOLE, pair.old, pair.new
    C, Z, W = old
    new_C, new_Z, new_W = new
    return [
        (S + now.T) * new_C - now.e * new_above - now.g * new_below - now.a * new_Z - now.s * new_W
        - ((S - was.T) * C + was.e * above + was.g * below + was.a * Z + was.s * W + (was.l + now.l) * pair.CL),
        (S + now.V) * new_Z - now.b * new_C - ((S - was.V) * Z + was.b * C + (was.m + now.m) * pair.CB),
        (S + now.h) * new_W - now.h * new_C - ((S - was.h) * W + was.h * C),
    ]


class ExactRiver:
    """A start, then steps; C, Z and W hold one Fraction for each segment."""

    def __init__(self, course: Course, U: int) -> None:
        self.course = course
        self.n = 0
        self.U = U
        self.C = [Fraction(part.start) for part in course.river]
        self.Z = list(self.C)
        self.W = list(self.C)

    def step(self, new_U: int) -> None:
        """Z' and W' put into the channel equation leave one equation for each C'."""
        S = ONE_WHOLE
        pairs = self.course.pairs(self.n + 1)
        last = len(pairs) - 1
        shares: list[Fraction] = []     # C' of a segment = base + share x C' below it
        bases: list[Fraction] = []
        stores: list[Fraction] = []     # Z' = store + b C'/(S+V) and W' = sediment + h C'/(S+h)
        sediments: list[Fraction] = []
        for at, (was, now, CL, CB) in enumerate(pairs):
            C, Z, W = self.C[at], self.Z[at], self.W[at]
            above = self.C[at - 1] if at else self.U
            below = self.C[at + 1] if at < last else 0
            stores.append(Fraction((S - was.V) * Z + was.b * C + (was.m + now.m) * CB, S + now.V))
            sediments.append(Fraction((S - was.h) * W + was.h * C, S + now.h))
            factor = S + now.T - Fraction(now.a * now.b, S + now.V) - Fraction(now.s * now.h, S + now.h)
            right = ((S - was.T) * C + was.e * above + was.g * below + was.a * Z + was.s * W
                     + (was.l + now.l) * CL + now.a * stores[-1] + now.s * sediments[-1])
            if at:
                factor -= now.e * shares[-1]
                right += now.e * bases[-1]
            else:
                right += now.e * new_U
            shares.append(now.g / factor)
            bases.append(right / factor)
        new_C = list(bases)
        for at in range(last - 1, -1, -1):
            new_C[at] += shares[at] * new_C[at + 1]
        new_Z = [store + Fraction(now.b, S + now.V) * new for (_, now, *_), store, new in zip(pairs, stores, new_C)]
        new_W = [sediment + Fraction(now.h, S + now.h) * new
                 for (_, now, *_), sediment, new in zip(pairs, sediments, new_C)]
        self.put_back(pairs, new_C, new_Z, new_W, new_U)
        self.C, self.Z, self.W, self.U, self.n = new_C, new_Z, new_W, new_U, self.n + 1

    def put_back(self, pairs: list[Pair], new_C: list[Fraction], new_Z: list[Fraction], new_W: list[Fraction],
                 new_U: int) -> None:
        """Every segment's three equations hold, below the last with nothing."""
        old = [self.U, *self.C, 0]
        new = [new_U, *new_C, 0]
        for at, pair in enumerate(pairs):
            left_over = residuals(pair, (self.C[at], self.Z[at], self.W[at]),
                                  (new_C[at], new_Z[at], new_W[at]),
                                  old[at], new[at], old[at + 2], new[at + 2])
            if any(left_over):
                raise NoSolution(f"segment {at + 1}: {left_over}")

    def figures(self, at: int) -> list[Bounds]:
        return [Bounds(figure, figure) for figure in (self.C[at], self.Z[at], self.W[at])]


def down(numerator: int, denominator: int) -> int:
    return numerator // denominator


def up(numerator: int, denominator: int) -> int:
    return -(-numerator // denominator)


class BracketedRiver:
    """The same river; each figure is a pair of whole numbers over 2^PLACES around the exact one.

    All coefficients of the elimination are at least 0 but for one subtraction, so a lower
    bound comes from lower bounds over an upper divisor, and an upper one the other way round.
    """

    def __init__(self, course: Course, U: int) -> None:
        self.course = course
        self.n = 0
        self.U = U
        self.C = [(part.start << PLACES, part.start << PLACES) for part in course.river]
        self.Z = list(self.C)
        self.W = list(self.C)
        self.eliminated: dict[int, tuple[list[tuple[int, int]], list[tuple[int, int]]]] = {}

    def elimination(self, flow: int) -> tuple[list[tuple[int, int]], list[tuple[int, int]]]:
        """The factors and shares of a step whose new side has this flow."""
        if flow not in self.eliminated:
            factors: list[tuple[int, int]] = []
            shares: list[tuple[int, int]] = []
            for part, *_ in self.course.rivers[flow]:
                low, high = (self.factor(part, divide) for divide in (down, up))
                if shares:
                    share_low, share_high = shares[-1]
                    low, high = low - part.e * share_high, high - part.e * share_low
                factors.append((low, high))
                shares.append((down(part.g << 2 * PLACES, high), up(part.g << 2 * PLACES, low)))
            self.eliminated[flow] = factors, shares
        return self.eliminated[flow]

    @staticmethod
    def factor(part: Numbers, divide: Divide) -> int:
        """S+T - ab/(S+V) - sh/(S+h), written without a minus."""
        S = ONE_WHOLE
        return ((S + part.e + part.g + part.l + part.k << PLACES)
                + divide(part.a * (S + part.ks + part.m) << PLACES, S + part.V)
                + divide(part.s * S << PLACES, S + part.h))

    def step(self, new_U: int) -> None:
        low = self.bound(new_U, 0, down)
        high = self.bound(new_U, 1, up)
        self.C, self.Z, self.W = (list(zip(*both)) for both in zip(low, high))
        self.U = new_U
        self.n += 1

    def bound(self, new_U: int, side: int, divide: Divide) -> tuple[list[int], list[int], list[int]]:
        """The new lower (side 0) or upper (side 1) bounds."""
        S = ONE_WHOLE
        pairs = self.course.pairs(self.n + 1)
        factors, shares = self.elimination(self.course.flow(self.n + 1))
        C, Z, W = ([bounds[side] for bounds in figures] for figures in (self.C, self.Z, self.W))
        channel = [self.U << PLACES, *C, 0]
        stores, sediments, new_C = [], [], []
        base = new_U << PLACES
        for at, (was, now, CL, CB) in enumerate(pairs):
            store = (S - was.V) * Z[at] + was.b * C[at] + ((was.m + now.m) * CB << PLACES)
            sediment = (S - was.h) * W[at] + was.h * C[at]
            right = ((S - was.T) * C[at] + was.e * channel[at] + was.g * channel[at + 2]
                     + was.a * Z[at] + was.s * W[at] + ((was.l + now.l) * CL << PLACES)
                     + divide(now.a * store, S + now.V) + divide(now.s * sediment, S + now.h))
            base = divide(right + now.e * base << PLACES, factors[at][1 - side])
            stores.append(store)
            sediments.append(sediment)
            new_C.append(base)
        for at in range(len(pairs) - 2, -1, -1):
            new_C[at] += divide(shares[at][side] * new_C[at + 1], 1 << PLACES)
        new_Z = [divide(store + now.b * new, S + now.V)
                 for (_, now, *_), store, new in zip(pairs, stores, new_C)]
        new_W = [divide(sediment + now.h * new, S + now.h)
                 for (_, now, *_), sediment, new in zip(pairs, sediments, new_C)]
        return new_C, new_Z, new_W

    def figures(self, at: int) -> list[Bounds]:
        return [Bounds(Fraction(low, 1 << PLACES), Fraction(high, 1 << PLACES))
                for low, high in (self.C[at], self.Z[at], self.W[at])]


def distance(figure: Figure, exact: Bounds) -> Fraction:
    """The largest distance, either way, that the figure can have from the exact one."""
    return max(figure - exact.low, exact.high - figure)


def distances(printed: tuple[int, int, int], Kd: int, exact: list[Bounds]) -> list[float | Fraction]:
    """Distances of C, Z and Kd x W, the last counted in Kd; where Kd is 0 only 0 is right."""
    C, Z, sediment = printed
    if Kd:
        last: float | Fraction = distance(Fraction(sediment, Kd), exact[2])
    else:
        last = math.inf if sediment else 0
    return [distance(C, exact[0]), distance(Z, exact[1]), last]


def exact_river(kind: str, course: Course, U: int) -> Union[ExactRiver, BracketedRiver]:
    return {"fractions": ExactRiver, "brackets": BracketedRiver}[kind](course, U)


class SheetsRiver:
    """The exact river of an accepted sheet, fed the sheet alone."""

    def __init__(self, sheet: bytes, kind: str) -> None:
        found = model.read_sheet(sheet)
        self.M = found.header.M
        self.rows = found.rows
        self.course = Course(found)
        self.exact = exact_river(kind, self.course, self.upstream(0))

    def upstream(self, number: int) -> int:
        return [row.concentration for row in self.rows if row.start <= number][-1]

    def step_to(self, number: int) -> None:
        if not self.exact.n <= number <= self.M:
            raise ValueError(f"step {number} after step {self.exact.n} of {self.M}")
        while self.exact.n < number:
            self.exact.step(self.upstream(self.exact.n + 1))

    def per_step(self, gauge: int, printed: tuple[int, int, int]) -> float | Fraction:
        """The largest distance of a segment's three figures, for each step made."""
        at = gauge - 1
        return max(distances(printed, self.course.river[at].Kd, self.exact.figures(at))) / self.exact.n
