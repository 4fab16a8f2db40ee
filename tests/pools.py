"""A pool under test: what its table and its shared lists must hold, and its calls put to the library and to the model.

What the forty numbers and the shared lists hold after a call is said here in plain functions, from document 02, 3.
The figures come from the model, whose rivers are kept apart.  In a pool run each open river also has a twin: the same
river alone, by the calls of document 01 on lists of its own, with its exact river.
"""
from __future__ import annotations

import random
from bisect import bisect_left
from typing import NamedTuple, Optional

import model
import sheets
from calls import (LISTS, Caller, Change, Difference, Run, Shelf, Tally, Told, draw_word, draw_words, hold_search,
                   some_limit)
from library import FIGURES, OLD, WORKING, Library, Slice, U32, flat
from model import (COLUMNS, HIGHEST, MOST_BLOCKS, MOST_RIVERS, MOST_SEGMENTS, NONE_ABOVE, SET, Segment, Slot, State,
                   Table, open_rivers)
from sheets import HIGHEST_FIELD

WIDTH = len(Slot._fields)
NUMBERS = range(1, MOST_RIVERS + 1)
OUTSIDE = (0, MOST_RIVERS + 1, HIGHEST_FIELD)       # numbers that no river can have

Shared = dict[str, list[int]]       # the shared lists by name


# What table and shared lists hold after an accepted call; a refused one leaves them


def replaced(table: Table, number: int, **changes: int) -> Table:
    return [slot._replace(**changes) if at == number else slot for at, slot in enumerate(table, 1)]


def after_opening(table: Table, shared: Shared, number: int, starts: list[int], u: int) -> tuple[Table, Shared]:
    """The open rivers' entries come to the front in their order, the new river's behind them; the rest stays."""
    kept = sorted(set().union(*(slot.stretch for slot in open_rivers(table))))
    fronts = {name: [content[segment] for segment in kept] + starts for name, content in shared.items()}
    lists = {name: front + shared[name][len(front):] for name, front in fronts.items()}
    moved = [slot._replace(first=bisect_left(kept, slot.first)) if slot.opened else slot for slot in table]
    return replaced(moved, number, opened=1, first=len(kept), segments=len(starts), upstream=u, steps=0), lists


def after_moving(table: Table, shared: Shared, number: int, state: State) -> tuple[Table, Shared]:
    """A start or a step: the river's stretch, and U and the count in its slot; nothing else."""
    stretch = table[number - 1].stretch
    lists = {name: content[:stretch.start] + figures + content[stretch.stop:]
             for (name, content), figures in zip(shared.items(), (state.C, state.Z, state.W))}
    return replaced(table, number, upstream=state.U, steps=state.count), lists


def after_closing(table: Table, number: int) -> Table:
    return replaced(table, number, opened=0)


# The calls


class Lent(NamedTuple):
    """The lists of a start, step or report as the model takes them."""

    old: model.Lists
    lists: model.Lists
    p: list[int]
    y: list[int]


class PoolCalls(Caller):
    """A table and three shared lists on the shelf, and the model's rivers, which are kept apart.

    Each number has its own list of highest figures there, which the calls on that river are lent and no others; a call
    is told of its length as that of "highest".
    """

    def __init__(self, library: Library, rng: random.Random, tally: Tally, table: Optional[Table] = None,
                 shared: Optional[Shared] = None) -> None:
        """With any table and shared lists; else none is open, and all else has any content."""
        super().__init__(library, rng, tally)
        table = table or [Slot(0, *(draw_word(rng) for _ in Slot._fields[1:])) for _ in NUMBERS]
        shared = shared or {name: draw_words(rng, MOST_SEGMENTS + rng.randrange(3)) for name in FIGURES}
        for name, content in (("table", flat(table)), *shared.items()):
            self.shelf.add(name, content)
        self.pool = model.Pool.of(table, *shared.values())

    @property
    def table(self) -> Table:
        words = self.shelf.content["table"]
        return [Slot(*words[at:at + WIDTH]) for at in range(0, len(words), WIDTH)]

    @property
    def shared(self) -> Shared:
        return {name: self.shelf.content[name] for name in FIGURES}

    def put_pool(self, table: Table, shared: Optional[Shared] = None) -> None:
        """Any table, and any content of the shared lists; the model's rivers are what stands there."""
        self.shelf.put("table", flat(table))
        for name, content in (shared or {}).items():
            self.shelf.put(name, content)
        self.pool = model.Pool.of(table, *self.shared.values())

    def keep_pool(self, table: Table, shared: Optional[Shared] = None) -> None:
        """What an accepted call leaves."""
        self.shelf.content["table"] = flat(table)
        self.shelf.content |= shared or {}

    def answer(self) -> int:
        return self.shelf.content["number"][0]

    def shared_slices(self, told: Told, names: tuple[str, ...] = FIGURES) -> list[Slice]:
        return [self.shelf.lent(name, told) for name in names]

    def shortest(self, told: Told, names: tuple[str, ...] = FIGURES) -> int:
        return min(each.length for each in self.shared_slices(told, names))

    def highest_name(self, number: int) -> str:
        """The list of a number's highest figures: long enough for every river, with any content before."""
        name = f"highest {number}"
        if name not in self.shelf.content:
            self.shelf.add(name, draw_words(self.rng, MOST_BLOCKS + self.rng.randrange(3)))
        return name

    def highest(self, number: int, told: Told) -> list[int]:
        """That list as the model is lent it."""
        return self.shelf.content[self.highest_name(number)][:told.get("highest")]

    def highest_slice(self, number: int, told: Told) -> Slice:
        name = self.highest_name(number)
        return self.shelf.part(name, told.get("highest", self.shelf.buffers[name].length))

    def keep_highest(self, number: int, highest: list[int]) -> None:
        """What an accepted call leaves in it."""
        self.shelf.content[self.highest_name(number)][:len(highest)] = highest

    def lend_river(self, old: list[Segment], new: list[Segment]) -> Shelf:
        """A shelf with the lists of a river: the set of its old side, the fourteen lists, working lists."""
        shelf, n = Shelf(), len(new)
        sides = [model.Lists(n) for _ in range(2)]
        for lists, river in zip(sides, (old, new)):
            lists.fill(river)
        for name, content in (*zip(OLD, sides[0].column.values()), *sides[1].column.items()):
            shelf.add(name, [*content, *(draw_word(self.rng) for _ in range(self.rng.randrange(3)))])
        for name in WORKING:
            shelf.add(name, [self.rng.getrandbits(64) for _ in range(n + self.rng.randrange(3))], 8)
        return shelf

    def open(self, number: int, sheet: bytes, u: int, row: int = 0, lengths: Optional[list[int]] = None,
             records: int = model.MOST_REACHES, told: Optional[Told] = None, what: str = "") -> bool:
        """An opening into lists of these lengths, else of 1,024 entries each."""
        shelf, told = self.shelf, told or {}
        lists, table = self.lend_loading(sheet, lengths or [MOST_SEGMENTS] * len(COLUMNS), records)
        highest = self.highest(number, told)
        refusal = None
        try:
            loaded = self.pool.open(number, sheet, row, lists, table, self.shortest(told), highest, self.table, u)
            self.keep_loading(loaded, table)
            self.keep_highest(number, highest)
            self.keep_pool(*after_opening(self.table, self.shared, number, lists.column["start"][:loaded.segments], u))
        except model.Refusal as found:
            refusal = found
        self.library.call("pool_open", *self.references(), shelf.buffers["loaded"], U32(number), shelf.whole("sheet"),
                          U32(row), Slice(shelf.buffers["reaches"], records),
                          *(shelf.whole(name) for name in COLUMNS), *self.shared_slices(told),
                          self.highest_slice(number, told), shelf.buffers["table"], U32(u))
        return self.settle("pool_open", refusal, f"{what}, number {number}, flow row {row}, U {u}, told {told}")

    # start, step and report are lent the river's lists, which stand on a shelf of their own

    @staticmethod
    def lent(shelf: Shelf, told: Told) -> Lent:
        content = {name: shelf.content[name][:told.get(name)] for name in (*OLD, *COLUMNS, *WORKING)}
        old, lists = model.Lists(0), model.Lists(0)
        old.column = {name: content[old_name] for name, old_name in zip(SET, OLD)}
        lists.column = {name: content[name] for name in COLUMNS}
        return Lent(old, lists, content["p"], content["y"])

    @staticmethod
    def slices(shelf: Shelf, names: tuple[str, ...], told: Told) -> list[Slice]:
        return [shelf.lent(name, told) for name in names]

    def end(self, name: str, shelf: Shelf, refusal: Optional[model.Refusal], what: str) -> bool:
        """Compares the river's lists too."""
        shelf.compare(f"{name}, {what}")
        return self.settle(name, refusal, what)

    def move(self, number: int, highest: list[int]) -> None:
        """What an accepted start or step leaves in table, shared lists and highest figures."""
        self.keep_pool(*after_moving(self.table, self.shared, number, self.pool.rivers[number]))
        self.keep_highest(number, highest)

    def start(self, number: int, u: int, shelf: Shelf, told: Optional[Told] = None) -> bool:
        told = told or {}
        lent, highest = self.lent(shelf, told), self.highest(number, told)
        self.dirty()
        refusal = None
        try:
            self.pool.start(number, lent.lists, self.shortest(told), highest, self.table, u)
            self.move(number, highest)
        except model.Refusal as found:
            refusal = found
        self.library.call("pool_start", *self.references(), U32(number), *self.slices(shelf, COLUMNS, told),
                          *self.shared_slices(told), self.highest_slice(number, told), self.shelf.buffers["table"],
                          U32(u))
        return self.end("pool_start", shelf, refusal, f"number {number}, U {u}, told {told}")

    def step(self, number: int, u: int, steps: int, shelf: Shelf, told: Optional[Told] = None) -> bool:
        told = told or {}
        lent, highest = self.lent(shelf, told), self.highest(number, told)
        self.dirty()
        refusal = None
        try:
            self.pool.step(number, lent.old, lent.lists, self.shortest(told), highest, self.table, lent.p, lent.y, u,
                           steps)
            self.move(number, highest)
            for name, content in zip(WORKING, (lent.p, lent.y)):
                shelf.content[name][:len(content)] = content
        except model.Refusal as found:
            refusal = found
        self.library.call("pool_step", *self.references(), U32(number), *self.slices(shelf, (*OLD, *COLUMNS), told),
                          *self.shared_slices(told), self.highest_slice(number, told), self.shelf.buffers["table"],
                          *self.slices(shelf, WORKING, told), U32(u), U32(steps))
        return self.end("pool_step", shelf, refusal, f"number {number}, U' {u}, M {steps}, told {told}")

    def report(self, number: int, segment: int, shelf: Shelf, told: Optional[Told] = None) -> bool:
        told = told or {}
        lent = self.lent(shelf, told)
        self.dirty("c", "z", "kdw")
        refusal = None
        try:
            figures = self.pool.report(number, lent.lists, self.shortest(told), self.table, segment)
            for name, figure in zip(("c", "z", "kdw"), figures):
                self.shelf.content[name] = [figure]
        except model.Refusal as found:
            refusal = found
        figures = [self.shelf.buffers[name] for name in ("c", "z", "kdw")]
        self.library.call("pool_report", *self.references(), *figures, U32(number),
                          *self.slices(shelf, COLUMNS, told), *self.shared_slices(told),
                          self.shelf.buffers["table"], U32(segment))
        return self.end("pool_report", shelf, refusal, f"number {number}, segment {segment}, told {told}")

    def search(self, number: int, limit: int, told: Optional[Told] = None) -> Optional[int]:
        """What a search of the river names, if it is accepted; of the shared lists it is lent C alone."""
        told = told or {}
        highest, shared = self.highest(number, told), self.shortest(told, ("C",))
        self.dirty("segment")
        allowed: set[int] = set()
        refusal = None
        try:
            allowed = self.pool.search(number, shared, highest, self.table, limit)
        except model.Refusal as found:
            refusal = found
        self.library.call("pool_search", *self.references(), self.shelf.buffers["segment"], U32(number),
                          *self.shared_slices(told, ("C",)), self.highest_slice(number, told),
                          self.shelf.buffers["table"], U32(limit))
        return self.settle_search("pool_search", allowed, refusal, f"number {number}, limit {limit}, told {told}")

    def close(self, number: int) -> bool:
        self.dirty()
        refusal = None
        try:
            self.pool.close(number, self.table)
            self.keep_pool(after_closing(self.table, number))
        except model.Refusal as found:
            refusal = found
        self.library.call("pool_close", *self.references(), U32(number), self.shelf.buffers["table"])
        return self.settle("pool_close", refusal, f"number {number}")


# Pool runs: begun with none open, each call lent what the last one left


class PoolRun(PoolCalls):
    """Any calls, refused ones included; each open river has its twin, which is fed the calls on it and no others."""

    def __init__(self, library: Library, rng: random.Random, tally: Tally, stock: list[sheets.Case]) -> None:
        super().__init__(library, rng, tally)
        self.stock = stock
        self.twins: dict[int, Run] = {}

    def begin(self, number: int, case: sheets.Case, u: int) -> None:
        """An opening was accepted: the same river alone is loaded and started."""
        twin = self.twins[number] = Run(self.library, self.rng, self.tally, case.sheet, case.exact)
        if not twin.start(twin.n, u, {}):
            raise Difference("a start of a river that was opened is refused")
        twin.begin(u)

    def hold_apart(self) -> None:
        """Every open river stands on its stretch as its twin stands alone; and no other river is open."""
        table = self.table
        if {number for number in NUMBERS if table[number - 1].opened} != set(self.twins):
            raise Difference(f"open are {[slot.opened for slot in table]}, not {sorted(self.twins)}")
        for number, twin in self.twins.items():
            slot, alone = table[number - 1], twin.shelf.content
            if (slot.segments, slot.upstream, slot.steps) != (twin.n, alone["upstream"][0], alone["done"][0]):
                raise Difference(f"river {number} is {slot}, alone U is {alone['upstream']}, count {alone['done']}")
            for name in FIGURES:
                if self.shelf.content[name][slot.first:slot.first + slot.segments] != alone[name][:twin.n]:
                    raise Difference(f"{name} of river {number} is not that of the river alone")
            blocks = model.block_count(twin.n)
            if self.highest(number, {})[:blocks] != alone["highest"][:blocks]:
                raise Difference(f"the highest figures of river {number} are not those of the river alone")

    # one call, drawn at random

    def some_number(self, opened: bool) -> int:
        """Nearly always one that is open, or one that is not."""
        rng = self.rng
        if rng.random() < 0.06:
            return rng.choice((*OUTSIDE, 2 ** 31, rng.randint(0, HIGHEST_FIELD)))
        found = [number for number in NUMBERS if (number in self.twins) == opened]
        return rng.choice(found if found and rng.random() < 0.94 else NUMBERS)

    def some_shared(self) -> Told:
        """Nearly always the shared lists' own lengths, 1,024 at least; else one or two of them short."""
        rng = self.rng
        if rng.random() < 0.95:
            return {name: MOST_SEGMENTS for name in FIGURES if rng.random() < 0.2}
        return {name: rng.choice((0, MOST_SEGMENTS - 1, rng.randrange(MOST_SEGMENTS)))
                for name in rng.sample(FIGURES, rng.randint(1, 2))}

    def some_u(self) -> int:
        rng = self.rng
        return rng.choice((HIGHEST + 1, HIGHEST_FIELD)) if rng.random() < 0.06 else sheets.concentration(rng)

    def some_case(self) -> sheets.Case:
        """A sheet of the stock; now and then with one change, which may be refused."""
        rng, case = self.rng, self.rng.choice(self.stock)
        if rng.random() < 0.9:
            return case
        kind = rng.choice(("a bit", "a byte", "a field", "a field", "a stretch lost", "a cut"))
        sheet = sheets.changed(rng, kind, rng.randrange(len(case.sheet)), case.sheet)
        return case._replace(sheet=sheet, exact="")

    def one_opening(self) -> None:
        rng, number, case, u = self.rng, self.some_number(False), self.some_case(), self.some_u()
        rows = n = records = 0
        try:
            found = model.walk(model.Walk(case.sheet))
            rows, n, records = len(found.flow_rows), model.segment_count(found.reaches), len(found.reaches)
        except (model.Refusal, MemoryError):
            pass
        n = min(n, MOST_SEGMENTS)
        lengths = [n + rng.randrange(3) for _ in COLUMNS]
        if n and rng.random() < 0.04:
            lengths[rng.randrange(len(lengths))] = rng.randrange(n)
        row = rng.randint(0, rows) if rng.random() < 0.96 else rows + rng.choice((1, 2, 2 ** 31))
        records += rng.choice((0, 0, 1, 2)) if records == 0 or rng.random() < 0.97 else -1
        if self.open(number, case.sheet, u, row, lengths, records, self.some_shared(), case.name):
            self.begin(number, case, u)

    def one_closing(self) -> None:
        number = self.some_number(True)
        if self.close(number):
            del self.twins[number]

    def some_changes(self, number: int, lent: Run) -> tuple[list[Change], list[Change]]:
        """Nearly always none; else figures of the river's lists, and of the table or the shared lists."""
        rng = self.rng
        lists, pool = [], []
        slot = self.table[number - 1] if number in NUMBERS else Slot(0, 0, 0, 0, 0)
        for change in lent.some_changes():
            if change.name in FIGURES:
                pool.append(change._replace(at=min(slot.first + change.at, MOST_SEGMENTS - 1)))
            elif change.name in ("upstream", "done"):
                at = WIDTH * ((number - 1) % MOST_RIVERS) + Slot._fields.index("upstream") + (change.name == "done")
                pool.append(Change("table", at, change.figure))
            else:
                lists.append(change)
        for change in lent.some_highest(0.05):
            pool.append(change._replace(name=self.highest_name(number)))
        if rng.random() < 0.05:         # the water of others, or of nobody
            pool.append(Change(rng.choice(FIGURES), rng.randrange(MOST_SEGMENTS), HIGHEST_FIELD))
        if rng.random() < 0.08:
            at = rng.randrange(len(self.shelf.content["table"]))
            word = self.shelf.content["table"][at]
            figure = rng.choice((0, 1, max(word - 1, 0), min(word + 1, HIGHEST_FIELD), MOST_SEGMENTS, MOST_SEGMENTS + 1,
                                 draw_word(rng)))
            pool.append(Change("table", at, figure))
        return lists, pool

    @staticmethod
    def change(shelf: Shelf, changes: list[Change]) -> None:
        for change in changes:
            content = list(shelf.content[change.name])
            content[change.at] = change.figure
            shelf.put(change.name, content)

    def some_figures(self, name: str, lent: Run) -> tuple[int, int]:
        """A report's segment, a search's limit, or U and of a step M."""
        if name == "report":
            return lent.some_segment(lent.n), 0
        if name == "search":
            return some_limit(self.rng, lent.shelf.content["C"][:lent.n]), 0
        return self.some_u(), lent.some_steps(lent.moves)

    def put_alone(self, name: str, twin: Run, figure: int, steps: int, told: Told) -> None:
        """The river alone answers the same, and moves as the river in the pool did."""
        own = {each: length for each, length in told.items() if each not in FIGURES}
        handed = ("number", "kind", "place")
        if name == "report":
            if twin.report(twin.n, figure, own):
                handed += ("c", "z", "kdw")
        elif name == "search":
            found = twin.search(twin.n, figure, own)
            if found is not None:
                hold_search(found, twin.shelf.content["C"][:twin.n], figure)
                if (found == NONE_ABOVE) != (self.shelf.content["segment"][0] == NONE_ABOVE):
                    raise Difference(f"limit {figure}: the river alone has {found}, in the pool it is not so")
        elif name == "start":
            if twin.start(twin.n, figure, own):
                twin.begin(figure)
        elif twin.step(twin.n, figure, steps, own):
            twin.move(figure)
        told_here, alone = ([each.shelf.content[part][0] for part in handed] for each in (self, twin))
        if told_here != alone:
            raise Difference(f"{name} in the pool answers {told_here}, alone {alone}")

    def one_call(self) -> None:
        rng = self.rng
        opened = len(self.twins)
        name = rng.choices(("open", "close", "start", "step", "report"),
                           (3 if opened < 5 else 1, 0.3 * opened ** 0.5, opened and 1, opened and 9, opened and 3))[0]
        if name == "open":
            self.one_opening()
        elif name == "close":
            self.one_closing()
        else:
            self.one_move(name)
        if self.twins and rng.random() < 0.3:
            self.one_move("search")
        self.hold_apart()

    def one_move(self, name: str) -> None:
        rng, number = self.rng, self.some_number(True)
        own = number in self.twins and rng.random() < 0.95
        lent = self.twins[number] if own else rng.choice(list(self.twins.values()))
        if name in ("start", "report"):
            lent.lend_columns_of(lent.any_flow())
        elif name == "step" and rng.random() < 0.9:
            lent.lend_next_pair()
        elif name == "step":
            lent.lend_pair(lent.any_flow(), lent.any_flow())
            own = False
        lists, pool = self.some_changes(number, lent)
        before = [(shelf, name, list(shelf.content[name])) for shelf, names in (
            (lent.shelf, (*OLD, *COLUMNS, *WORKING)),
            (self.shelf, ("table", *FIGURES, self.highest_name(number)))) for name in names]
        rivers = self.pool
        self.change(lent.shelf, lists)
        self.change(self.shelf, pool)
        if not own or lists or pool:    # not a call of this run: an accepted one was lent other lists
            own = False
            self.pool = model.Pool.of(self.table, *self.shared.values())
        short = {"start": (*COLUMNS, "highest"), "step": LISTS, "report": COLUMNS, "search": ("highest",)}[name]
        told = {**self.some_shared(), **lent.some_told(short)}
        figure, steps = self.some_figures(name, lent)
        if name == "step":
            self.step(number, figure, steps, lent.shelf, told)
        elif name == "search":
            self.search(number, figure, told)
        else:
            (self.start if name == "start" else self.report)(number, figure, lent.shelf, told)
        if not own:
            self.pool = rivers
            for shelf, each, content in before:
                shelf.put(each, content)
        elif self.answer() != 18 and self.shortest(told) >= MOST_SEGMENTS:
            self.put_alone(name, lent, figure, steps, told)

    def go(self, calls: int) -> None:
        for _ in range(calls):
            self.one_call()
