"""Calls put to the library and to the model, one after the other.

After each call every byte that is on the shelf is compared: the answer, its place, every list, what lies behind
the river in it, and the guard words around it.  A run also holds its figures to the exact river fed the same calls.
"""
from __future__ import annotations

import random
from collections import Counter
from fractions import Fraction
from typing import NamedTuple, Optional

import exact
import model
import sheets
from library import FIGURES, KINDS, OLD, WORKING, Argument, Buffer, Library, Size, Slice, U32, flat
from model import (COLUMNS, HIGHEST, HIGHEST_KD, MOST_SEGMENTS, MOST_STEPS, ONE_WHOLE, SET, Reach, gauge_count_at,
                   row_count_at)
from sheets import HIGHEST_FIELD

MOVED = (*FIGURES, "highest")       # the lists that start and step leave for later calls
SEARCHED = ("C", "highest")
LISTS = (*OLD, *COLUMNS, *MOVED, *WORKING)
ANSWER = ("number", "kind", "place")
ACCEPTED = (0, None)
ABOVE = (0, "above")                # of an accepted search that names a segment

Answer = tuple[int, Optional[str]]  # a refusal's number, 0 if accepted, and the kind of its place
Told = dict[str, int]               # lengths that a call is told, where they are not the lists' own


def entries(name: str, n: int) -> int:
    """How many entries of a list 13 wants for n segments."""
    return model.block_count(n) if name == "highest" else n


class Difference(Exception):
    """The library did otherwise than the model."""


class Tally:
    """What the run has seen."""

    def __init__(self) -> None:
        self.answers: dict[str, Counter[Answer]] = {}
        self.held = 0
        self.per_step = Fraction(0)
        self.differences = 0

    def take(self, name: str, answer: Answer) -> None:
        self.answers.setdefault(name, Counter())[answer] += 1

    @property
    def calls(self) -> int:
        return sum(sum(counter.values()) for counter in self.answers.values())


def place_of(refusal: Optional[model.Refusal]) -> tuple[int, int, int]:
    """A refusal as the three numbers of an answer."""
    if refusal is None:
        return 0, 0, 0
    kind, place = refusal.place or (None, 0)
    return refusal.number, {name: number for number, name in KINDS.items()}[kind], place


# What is lent


def draw_word(rng: random.Random) -> int:
    """The content of a list that no call has written."""
    return rng.choice((0, 7, HIGHEST, HIGHEST_FIELD, rng.randint(0, HIGHEST_FIELD)))


def draw_words(rng: random.Random, count: int) -> list[int]:
    """That of a long one, drawn faster."""
    return rng.choices([draw_word(rng) for _ in range(20)], k=count)


class Shelf:
    """Everything that is lent: each buffer by its name, beside what it must hold."""

    def __init__(self) -> None:
        self.buffers: dict[str, Buffer] = {}
        self.content: dict[str, list[int]] = {}

    def add(self, name: str, content: list[int], size: int = 4) -> None:
        self.buffers[name] = Buffer(content, size)
        self.content[name] = list(content)

    def put(self, name: str, content: list[int]) -> None:
        self.content[name] = list(content)
        self.buffers[name].put(content)

    def whole(self, name: str) -> Slice:
        return self.part(name, self.buffers[name].length)

    def part(self, name: str, length: int) -> Slice:
        return Slice(self.buffers[name], length)

    def lent(self, name: str, told: Told) -> Slice:
        """A list at the length that a call is told."""
        return self.part(name, told.get(name, self.buffers[name].length))

    def compare(self, what: str) -> None:
        """Every byte on the shelf is as it must be."""
        for name, buffer in self.buffers.items():
            if not buffer.holds(self.content[name]):
                found, wanted = buffer.content(), self.content[name]
                where = next((at for at, pair in enumerate(zip(found, wanted)) if pair[0] != pair[1]), None)
                differs = "the guards differ"
                if where is not None:
                    differs = f"entry {where} is {found[where]}, not {wanted[where]}"
                raise Difference(f"{what}: {name} of {len(wanted)}: {differs}")


class Caller:
    """Puts calls to the library and to the model, and compares all that was lent."""

    def __init__(self, library: Library, rng: random.Random, tally: Tally) -> None:
        self.library = library
        self.rng = rng
        self.tally = tally
        self.shelf = Shelf()
        for name in ANSWER:
            self.shelf.add(name, [0])
        self.shelf.add("c", [0])
        self.shelf.add("z", [0])
        self.shelf.add("kdw", [0], 8)
        self.shelf.add("u", [0])
        self.shelf.add("segment", [0])
        self.shelf.add("loaded", [0] * len(model.Loaded._fields))

    def dirty(self, *names: str) -> None:
        """Any content in what a call is to write."""
        for name in (*ANSWER, *names):
            self.shelf.put(name, [draw_word(self.rng) for _ in self.shelf.content[name]])

    def references(self) -> list[Buffer]:
        return [self.shelf.buffers[name] for name in ANSWER]

    def settle(self, name: str, refusal: Optional[model.Refusal], what: str, accepted: Answer = ACCEPTED) -> bool:
        """Compares everything after a call; says whether it was accepted."""
        told = place_of(refusal)
        for each, figure in zip(ANSWER, told):
            self.shelf.content[each] = [figure]
        self.shelf.compare(f"{name}, {what}, which answers {told}")
        self.tally.take(name, accepted if refusal is None else (told[0], KINDS[told[1]]))
        return refusal is None

    def settle_search(self, name: str, allowed: set[int], refusal: Optional[model.Refusal], what: str
                      ) -> Optional[int]:
        """The same after a search, which may name any of those allowed; what it named, if it was accepted."""
        found = self.shelf.buffers["segment"].content()[0]
        if refusal is None:
            if found not in allowed:
                raise Difference(f"{name}, {what}: segment {found}, not one of {sorted(allowed)[:20]}")
            self.shelf.content["segment"] = [found]
        accepted = self.settle(name, refusal, what, ACCEPTED if found == model.NONE_ABOVE else ABOVE)
        return found if accepted else None

    def lend_columns(self, lengths: list[int]) -> None:
        """The fourteen lists, with any content."""
        for name, length in zip(COLUMNS, lengths):
            self.shelf.add(name, draw_words(self.rng, length))

    def lend_loading(self, sheet: bytes, lengths: list[int], records: int) -> tuple[model.Lists, list[Reach]]:
        """A sheet, and lists and reach records of any content; these as the model is lent them."""
        shelf = self.shelf
        shelf.add("sheet", list(sheet), 1)
        shelf.add("reaches", draw_words(self.rng, records * len(Reach._fields)))
        self.lend_columns(lengths)
        self.dirty("loaded")
        lists = model.Lists(0)
        lists.column = {name: shelf.content[name] for name in COLUMNS}
        words = shelf.content["reaches"]
        return lists, [Reach(*words[at:at + 16]) for at in range(0, len(words), 16)]

    def keep_loading(self, loaded: model.Loaded, table: list[Reach]) -> None:
        """What an accepted loading leaves beside the lists, which the model has written."""
        self.shelf.content["reaches"] = flat(table)
        self.shelf.content["loaded"] = list(loaded)

    def load(self, sheet: bytes, lengths: list[int], records: int, what: str, row: int = 0
             ) -> Optional[model.Loaded]:
        """A loading of a flow row's set into lists of these lengths."""
        shelf = self.shelf
        lists, table = self.lend_loading(sheet, lengths, records)
        loaded, refusal = None, None
        try:
            loaded = model.load(sheet, row, lists, table)
            self.keep_loading(loaded, table)
        except model.Refusal as found:
            refusal = found
        self.library.call("load", *self.references(), shelf.buffers["loaded"], shelf.whole("sheet"), U32(row),
                          Slice(shelf.buffers["reaches"], records), *(shelf.whole(name) for name in COLUMNS))
        self.settle("load", refusal, f"{what}, flow row {row}")
        return loaded

    def rows(self, starts: int, concentrations: int) -> bool:
        """The rows of the sheet on the shelf in lists of these lengths; bytes past the sheet's end are 0."""
        shelf = self.shelf
        sheet = bytes(shelf.content["sheet"])
        begin = row_count_at(sheet)
        count = model.field_at(sheet, begin)
        shelf.add("starts", [draw_word(self.rng) for _ in range(starts)])
        shelf.add("concentrations", [draw_word(self.rng) for _ in range(concentrations)])
        self.dirty()
        refusal = model.Refusal(13) if min(starts, concentrations) < count else None
        if refusal is None:
            words = model.words(sheet, begin + model.FIELD, 2 * count)
            shelf.content["starts"][:count] = words[0::2]
            shelf.content["concentrations"][:count] = words[1::2]
        self.library.call("rows", *self.references(), shelf.whole("sheet"), shelf.whole("starts"),
                          shelf.whole("concentrations"))
        return self.settle("rows", refusal, f"{count} rows")

    def reading(self, name: str, wanted: int, *handed: Argument) -> int:
        """A call that has a result and no answer; it writes nothing."""
        figures = "".join(f" {each}" for each in handed if isinstance(each, int))
        found = self.library.call(name, *handed)
        if found != wanted:
            raise Difference(f"{name}{figures} is {found}, not {wanted}")
        self.shelf.compare(f"{name}{figures}")
        self.tally.take(name, ACCEPTED)
        return found

    def gauge(self, j: int) -> int:
        sheet = bytes(self.shelf.content["sheet"])
        wanted = model.field_at(sheet, gauge_count_at(sheet) + model.FIELD + model.FIELD * j)
        return self.reading("gauge", wanted, self.shelf.whole("sheet"), Size(j))

    def flow(self, j: int) -> int:
        """The number of the flow in force at a step of the sheet on the shelf."""
        wanted = model.flow_in_force(bytes(self.shelf.content["sheet"]), j)
        return self.reading("flow", wanted, self.shelf.whole("sheet"), U32(j))

    def header_field(self, name: str) -> int:
        """dt or dx of the sheet on the shelf."""
        at = len(model.MARK) + model.FIELD * model.Header._fields.index(name)
        wanted = model.field_at(bytes(self.shelf.content["sheet"]), at)
        return self.reading(name, wanted, self.shelf.whole("sheet"))

    def upstream(self, starts: list[int], concentrations: list[int], steps: int, j: int) -> Optional[int]:
        shelf = self.shelf
        shelf.add("starts", starts)
        shelf.add("concentrations", concentrations)
        self.dirty("u")
        refusal = None
        try:
            shelf.content["u"] = [model.upstream(starts, concentrations, steps, j)]
        except model.Refusal as found:
            refusal = found
        self.library.call("upstream", *self.references(), shelf.buffers["u"], shelf.whole("starts"),
                          shelf.whole("concentrations"), U32(steps), U32(j))
        accepted = self.settle("upstream", refusal, f"M {steps}, step {j}")
        return shelf.content["u"][0] if accepted else None


def hold_search(found: Optional[int], figures: list[int], limit: int) -> None:
    """Of lists as a start or step left them a search says none exactly when no segment is above."""
    if (found == model.NONE_ABOVE) != all(figure <= limit for figure in figures):
        raise Difference(f"limit {limit}: a search finds {found} in a river of up to {max(figures)}")


def some_limit(rng: random.Random, figures: list[int]) -> int:
    """A figure of the river or a neighbour of one, or a limit of limits."""
    figure = rng.choice((max(figures), min(figures), rng.choice(figures)))
    near = rng.choice((figure, figure, max(figure - 1, 0), min(figure + 1, HIGHEST_FIELD)))
    return rng.choice((near, near, near, 0, HIGHEST, HIGHEST_FIELD, rng.randint(0, HIGHEST)))


# Runs: one accepted loading, then starts, steps, reports and searches, refused ones included


class Change(NamedTuple):
    """A figure of a lent list or of the state that a call finds changed."""

    name: str
    at: int
    figure: int


class Lent(NamedTuple):
    """The lists of a call and the state as the model takes them."""

    old: model.Lists
    lists: model.Lists
    state: model.State
    highest: list[int]
    p: list[int]
    y: list[int]


class Run(Caller):
    """A river that was loaded, and its exact river, which is fed the accepted calls alone; without a kind, none."""

    def __init__(self, library: Library, rng: random.Random, tally: Tally, sheet: bytes, kind: str) -> None:
        super().__init__(library, rng, tally)
        self.found = model.read_sheet(sheet)
        self.sheet = sheet
        self.course = exact.Course(self.found)
        self.n = len(self.course.river)
        self.kind = kind
        self.exact: Optional[exact.ExactRiver | exact.BracketedRiver] = None
        self.moves = 0                  # steps accepted since the latest accepted start
        self.sets: dict[int, dict[str, list[int]]] = {}         # as loaded, by the flow's number
        self.columns_of = self.load_set(rng.randint(0, len(self.found.flow_rows)))
        self.old_of = None
        self.steps = self.found.header.M
        for name in MOVED:
            self.shelf.add(name, [draw_word(rng) for _ in range(entries(name, self.n) + rng.randrange(3))])
        for name in WORKING:
            self.shelf.add(name, [rng.getrandbits(64) for _ in range(self.n + rng.randrange(3))], 8)
        self.shelf.add("upstream", [draw_word(rng)])
        self.shelf.add("done", [draw_word(rng)])
        self.lend_pair(0, 0)
        self.spoiling = random.Random(self.n)

    # sets: as the library loads them

    def load_set(self, row: int) -> int:
        """A loading of that flow's set, which is kept; the fourteen lists on the shelf hold it afterwards."""
        lengths = [self.n + self.rng.randrange(3) for _ in COLUMNS]
        records = len(self.found.reaches) + self.rng.randrange(3)
        if self.load(self.sheet, lengths, records, "a good river", row) is None:
            raise Difference(f"a good river is refused for flow row {row}")
        self.sets[row] = {name: self.shelf.content[name][:self.n] for name in COLUMNS}
        return row

    def lend_columns_of(self, row: int) -> None:
        """The fourteen lists hold that flow's set."""
        if row not in self.sets:
            self.load_set(row)
        elif row != self.columns_of:
            for name in COLUMNS:
                self.lend(name, self.sets[row][name])
        self.columns_of = row

    def lend_pair(self, old: int, new: int) -> None:
        """The ten lists of the old side hold one flow's set, the fourteen another's."""
        self.lend_columns_of(old)
        if old != self.old_of:
            for name, old_name in zip(SET, OLD):
                self.lend(old_name, self.sets[old][name])
            self.old_of = old
        self.lend_columns_of(new)

    def lend(self, name: str, content: list[int]) -> None:
        """A list with this content, and up to two entries more."""
        self.shelf.add(name, [*content, *(draw_word(self.rng) for _ in range(self.rng.randrange(3)))])

    def lend_next_pair(self) -> None:
        """The pair that the sheet's rows give for the step that comes next."""
        self.lend_pair(*(self.course.flow(self.moves + more) for more in (0, 1)))

    def any_flow(self) -> int:
        return self.rng.randint(0, len(self.found.flow_rows))

    # the model's call on what is on the shelf, at the lengths told

    def lent(self, told: Told) -> Lent:
        content = {name: self.shelf.content[name][:told.get(name)] for name in LISTS}
        old, lists = model.Lists(0), model.Lists(0)
        old.column = {name: content[old_name] for name, old_name in zip(SET, OLD)}
        lists.column = {name: content[name] for name in COLUMNS}
        state = model.State(content["C"], content["Z"], content["W"], self.shelf.content["upstream"][0],
                            self.shelf.content["done"][0])
        return Lent(old, lists, state, content["highest"], content["p"], content["y"])

    def keep(self, lent: Lent) -> None:
        """What an accepted call leaves on the shelf."""
        state = lent.state
        for name, list_ in zip((*MOVED, *WORKING), (state.C, state.Z, state.W, *lent[3:])):
            self.shelf.content[name][:len(list_)] = list_
        self.shelf.content["upstream"] = [state.U]
        self.shelf.content["done"] = [state.count]

    def slices(self, names: tuple[str, ...], told: Told) -> list[Slice]:
        return [self.shelf.lent(name, told) for name in names]

    def start(self, n: int, u: int, told: Told) -> bool:
        lent = self.lent(told)
        self.dirty()
        refusal = None
        try:
            model.start(lent.lists, n, lent.state, lent.highest, u)
            self.keep(lent)
        except model.Refusal as found:
            refusal = found
        self.library.call("start", *self.references(), U32(n), *self.slices((*COLUMNS, *MOVED), told),
                          self.shelf.buffers["upstream"], self.shelf.buffers["done"], U32(u))
        return self.settle("start", refusal, f"n {n}, U {u}, told {told}")

    def spoil_p(self) -> None:
        """Half of the p that a step finds, and may try, are not those of the step before: they lie beside them, or so far
        off that the product with a power of two is the same in 64 bits, or are of any size."""
        rng, words = self.spoiling, self.shelf.content["p"]
        for at, p in enumerate(words):
            if rng.random() < 0.5:
                near = (p + 1, p - 1, p + 2 ** 33, p + 2 ** 34)
                words[at] = rng.choice((*near, 0, ONE_WHOLE, ONE_WHOLE + 1, rng.getrandbits(64))) % 2 ** 64
        self.shelf.put("p", words)

    def step(self, n: int, u: int, steps: int, told: Told) -> bool:
        if self.spoiling.random() < 0.3:
            self.spoil_p()
        lent = self.lent(told)
        self.dirty()
        refusal = None
        try:
            model.step(lent.old, lent.lists, n, lent.state, lent.highest, lent.p, lent.y, u, steps)
            self.keep(lent)
        except model.Refusal as found:
            refusal = found
        self.library.call("step", *self.references(), U32(n), *self.slices((*OLD, *COLUMNS, *MOVED), told),
                          self.shelf.buffers["upstream"], self.shelf.buffers["done"],
                          *self.slices(WORKING, told), U32(u), U32(steps))
        return self.settle("step", refusal, f"n {n}, U' {u}, M {steps}, told {told}")

    def report(self, n: int, segment: int, told: Told) -> bool:
        lent = self.lent(told)
        self.dirty("c", "z", "kdw")
        refusal = None
        try:
            figures = model.report(lent.lists, n, lent.state, segment)
            for name, figure in zip(("c", "z", "kdw"), figures):
                self.shelf.content[name] = [figure]
        except model.Refusal as found:
            refusal = found
        figures = [self.shelf.buffers[name] for name in ("c", "z", "kdw")]
        self.library.call("report", *self.references(), *figures, U32(n),
                          *self.slices((*COLUMNS, *FIGURES), told), U32(lent.state.U), U32(lent.state.count),
                          U32(segment))
        return self.settle("report", refusal, f"n {n}, segment {segment}, told {told}")

    def search(self, n: int, limit: int, told: Told) -> Optional[int]:
        """What a search of C and the highest figures names, whatever they hold, if it is accepted."""
        lent = self.lent(told)
        self.dirty("segment")
        allowed: set[int] = set()
        refusal = None
        try:
            allowed = model.search(n, lent.state.C, lent.highest, limit)
        except model.Refusal as found:
            refusal = found
        self.library.call("search", *self.references(), self.shelf.buffers["segment"], U32(n),
                          *self.slices(SEARCHED, told), U32(limit))
        return self.settle_search("search", allowed, refusal, f"n {n}, limit {limit}, told {told}")

    # the exact river

    def begin(self, u: int) -> None:
        """A start was accepted."""
        self.exact = exact.exact_river(self.kind, self.course, u) if self.kind else None
        self.moves = 0
        self.hold()

    def move(self, u: int) -> None:
        """A step was accepted, lent its pair by the sheet."""
        if self.exact is not None:
            self.exact.step(u)
        self.moves += 1
        self.hold()

    def hold(self) -> None:
        """Every segment's figures are within 6 x n of the exact river's, Kd x W within 6 x n x Kd."""
        content = self.shelf.content
        if content["done"][0] != self.moves:
            raise Difference(f"{content['done'][0]} steps counted, {self.moves} made")
        if self.exact is None:
            return
        for at, part in enumerate(self.course.river):
            figures = (content["C"][at], content["Z"][at], part.Kd * content["W"][at])
            far = max(exact.distances(figures, part.Kd, self.exact.figures(at)))
            if far > exact.ALLOWED * self.moves:
                raise Difference(f"segment {at + 1} is {float(far):.3f} from exact after {self.moves} steps")
            if self.moves:
                self.tally.per_step = max(self.tally.per_step, far / self.moves)
            self.tally.held += len(figures)

    # one call of the run, drawn at random

    def some_n(self) -> int:
        rng = self.rng
        if rng.random() < 0.92:
            return self.n
        return rng.choice((0, max(1, self.n - 1), self.n + 1, self.n + 2, MOST_SEGMENTS, MOST_SEGMENTS + 1,
                           HIGHEST_FIELD))

    def some_told(self, names: tuple[str, ...]) -> Told:
        """Nearly always the lists' own lengths; else one or two lists short."""
        rng = self.rng
        if rng.random() < 0.9:
            return {}
        wanted = {name: entries(name, self.n) for name in rng.sample(names, rng.randint(1, min(2, len(names))))}
        return {name: rng.choice((0, length - 1, rng.randrange(length))) for name, length in wanted.items()}

    def some_u(self) -> int:
        rng = self.rng
        return rng.choice((HIGHEST + 1, HIGHEST_FIELD)) if rng.random() < 0.06 else sheets.concentration(rng)

    def some_segment(self, n: int) -> int:
        rng = self.rng
        if rng.random() < 0.85:
            return rng.choice((1, self.n, rng.randint(1, self.n)))
        return rng.choice((0, n, min(n + 1, HIGHEST_FIELD), HIGHEST_FIELD))

    def some_steps(self, done: int) -> int:
        rng = self.rng
        if rng.random() < 0.75:
            return rng.choice((self.steps, MOST_STEPS, MOST_STEPS, MOST_STEPS))
        return rng.choice((0, 1, done, min(done + 1, HIGHEST_FIELD), max(done - 1, 0), MOST_STEPS + 1,
                           HIGHEST_FIELD, rng.randint(0, HIGHEST_FIELD)))

    def some_changes(self) -> list[Change]:
        """Nearly always none; else a figure at its limit or above it, in the lists of a set or in the state."""
        rng = self.rng
        if rng.random() < 0.8:
            return []
        found = []
        for _ in range(rng.choice((1, 1, 2))):
            at = rng.choice((0, self.n - 1, rng.randrange(self.n)))
            name = rng.choice((*OLD, *COLUMNS, *FIGURES, *("upstream", "done") * 3))
            if name in OLD or name in SET:
                lent = OLD if name in OLD else SET
                part = model.Numbers(*(self.shelf.content[each][at] for each in lent))
                number = SET[lent.index(name)]
                total = {"b": part.V, "ks": part.V, "m": part.V, "h": part.h}.get(number, part.T)
                top = getattr(part, number) + ONE_WHOLE - total
            else:
                top = {"Kd": HIGHEST_KD, "done": MOST_STEPS}.get(name, HIGHEST)
            figure = rng.choice((top, top + 1, top + 1, HIGHEST_FIELD, rng.randint(0, top)))
            found.append(Change(name, 0 if name in ("upstream", "done") else at, figure))
        return found

    def some_highest(self, often: float) -> list[Change]:
        """As often as that a highest figure that is not true, which no call refuses."""
        rng = self.rng
        if rng.random() >= often:
            return []
        return [Change("highest", rng.randrange(model.block_count(self.n)), draw_word(rng))]

    def other_set(self) -> list[Change]:
        """Now and then the set of another river as the old side's: a pair that differs in every number."""
        if self.rng.random() < 0.85:
            return []
        draft = sheets.good_river(self.rng, self.n, 1)
        river = model.rivers_of(model.read_sheet(sheets.write(draft)))[0]
        return [Change(name, at, figure) for at, part in enumerate(river) for name, figure in zip(OLD, part.numbers)]

    def one_call(self) -> None:
        """A start, step or report; one that was accepted as loaded moves the exact river."""
        rng, shelf = self.rng, self.shelf
        name = rng.choices(("start", "step", "report"), (1, 6, 3))[0]
        n, own = self.some_n(), True
        if name != "step":
            self.lend_columns_of(self.any_flow())       # any of the sheet's sets serves
        elif rng.random() < 0.9:
            self.lend_next_pair()
        else:
            self.lend_pair(self.any_flow(), self.any_flow())
            own = False
        changes = self.some_changes() + self.some_highest(0.05) + (self.other_set() if name == "step" else [])
        before = {each: list(shelf.content[each]) for each in (*LISTS, "upstream", "done")}
        for change in changes:
            content = list(shelf.content[change.name])
            content[change.at] = change.figure
            shelf.put(change.name, content)
        if name == "start":
            told, u = self.some_told((*COLUMNS, *MOVED)), self.some_u()
            accepted = self.start(n, u, told)
        elif name == "step":
            told, u = self.some_told(LISTS), self.some_u()
            accepted = self.step(n, u, self.some_steps(shelf.content["done"][0]), told)
        else:
            told = self.some_told((*COLUMNS, *FIGURES))
            accepted = self.report(n, self.some_segment(n), told)
        if changes or n != self.n or not own:
            for each, content in before.items():
                shelf.put(each, content)        # not a call of this run: an accepted one was lent other lists
        elif accepted and name == "start":
            self.begin(u)
        elif accepted and name == "step":
            self.move(u)

    def one_search(self) -> None:
        """A search of the lists as they were left, or with a highest figure that is not true."""
        figures, before = self.shelf.content["C"][:self.n], list(self.shelf.content["highest"])
        n, limit, changes = self.some_n(), some_limit(self.rng, figures), self.some_highest(0.4)
        for change in changes:
            self.shelf.put("highest", [*before[:change.at], change.figure, *before[change.at + 1:]])
        found = self.search(n, limit, self.some_told(SEARCHED))
        self.shelf.put("highest", before)
        if found is not None and n == self.n and not changes:
            hold_search(found, figures, limit)

    def go(self, calls: int) -> None:
        """The first start, with any state before it; then that many calls, and searches between them."""
        if not self.start(self.n, u := sheets.concentration(self.rng), {}):
            raise Difference("a start of a good river is refused")
        self.begin(u)
        for _ in range(calls):
            self.one_call()
            if self.rng.random() < 0.3:
                self.one_search()
