"""Rivers and what they share, by the model: what header.c must print for its commands on the header's helpers."""
from __future__ import annotations

from collections.abc import Callable
from typing import NamedTuple, Optional

import model
import sheets
from calls import place_of
from library import FIGURES
from model import (COLUMNS, HIGHEST, HIGHEST_KD, MOST_BLOCKS, MOST_FLOW_ROWS, MOST_RIVERS, MOST_SEGMENTS, MOST_STEPS,
                   SET, Row, Slot, Table, block_count)
from pools import after_closing, after_moving, after_opening, replaced
from signatures import MARKS, RESULT_MARK, Signature, recorded

# The header's names for the document's.
REACH = dict(zip(("segments", "dispersion", "area", "area2", "alpha", "qin", "qout", "cl", "lambda", "lambda2",
                  "lamhat", "lamhat2", "rho", "kd", "cb", "start"), model.Reach._fields))
LOADED = dict(zip(("steps", "interval", "segments", "rows_at", "rows", "gauges_at", "gauges", "flow_rows_at",
                   "flow_rows"), model.Loaded._fields))
OTHER_LISTS = [name.lower() for name in COLUMNS[len(SET):]]
STATE_LISTS = dict(zip(("channel", "storage", "sediment"), FIGURES))
ROW_LISTS = ("starts", "concentrations")
LISTS = (*OTHER_LISTS, *STATE_LISTS, "highest", *ROW_LISTS, "sides")
COPY_LISTS = (*STATE_LISTS, "highest")      # of the live river that a forecast reads and of the copy that it writes
WIDE_LISTS = ("p", "y")
SETS = (0, 1)                       # of a river
NO_FLOW = MOST_FLOW_ROWS + 1

# The entries that each macro counts: one list's, or those of so many lists, with the highest figures or without.
MACROS: dict[str, Callable[[int], int]] = {
    "HIGHEST_WORDS": block_count,
    "WORDS": lambda length: (len(COLUMNS) + len(STATE_LISTS)) * length + block_count(length),
    "LOADING_WORDS": lambda length: len(COLUMNS) * length,
    "SET_WORDS": lambda length: len(SET) * length,
    "COPY_WORDS": lambda length: len(STATE_LISTS) * length + block_count(length),
    "WIDE_WORDS": lambda length: len(WIDE_LISTS) * length,
    "SIDES_WORDS": lambda length: (len(SET) + len(COLUMNS)) * length,
    "ROW_WORDS": lambda length: len(ROW_LISTS) * length,
}
SHARED_WORDS = len(STATE_LISTS) * MOST_SEGMENTS

DIRTY = 0xA5A5A5A5
SHOWN, SHARED_SHOWN = 7, 17         # entries of a list that header.c prints, of a river and of what rivers share
ROOM, ROW_ROOM, RECORDS = 1_100, 16, 3
HIGHEST_ROOM = block_count(ROOM)
MEMORY = {                          # the first figure of each memory, and how many it has
    "words": (1_000_000, MACROS["WORDS"](ROOM)),
    "copy_words": (2_000_000, MACROS["COPY_WORDS"](ROOM)),
    "row_words": (3_000_000, MACROS["ROW_WORDS"](ROW_ROOM)),
    "wide_words": (4_000_000, MACROS["WIDE_WORDS"](ROOM)),
    "copy_wide_words": (5_000_000, MACROS["WIDE_WORDS"](ROOM)),
    "set_words": (6_000_000, MACROS["SET_WORDS"](ROOM)),
    "river_words": (7_000_000, MACROS["LOADING_WORDS"](ROOM)),
    "shared_words": (8_000_000, len(STATE_LISTS) * ROOM),
    "shared_wide_words": (9_000_000, MACROS["WIDE_WORDS"](ROOM)),
    "highest_words": (10_000_000, 2 * HIGHEST_ROOM),
    "side_words": (11_000_000, MACROS["SIDES_WORDS"](ROOM)),
}
SHEETS = ("first", "other", "third")        # as an opening names them


def set_lists(at: int) -> tuple[str, ...]:
    """The names of a set's lists: with the set's number."""
    return tuple(f"{at}.{name}" for name in SET)


Told = tuple[int, int, int]         # number, kind and place
ACCEPTED: Told = (0, 0, 0)


class Stretch(NamedTuple):
    """A lent list: where it begins in which memory, and how long it is told to be."""

    memory: str
    at: int
    length: int


class Command(NamedTuple):
    """A line of header.c's standard input."""

    name: str
    river: int
    field: str = "-"
    first: int = 0
    second: int = 0

    @classmethod
    def of(cls, line: str) -> Command:
        """Short for the whole line: the field and the figures may be left out."""
        name, river, *words = line.split()
        field = words.pop(0) if words and not words[0].isdigit() else "-"
        return cls(name, int(river), field, *map(int, words))

    def __str__(self) -> str:
        return " ".join(map(str, self))


class Mirrored:
    """A struct yumbaqel_river."""

    def __init__(self) -> None:
        self.lists: dict[str, Stretch] = {}
        self.flows = [NO_FLOW for _ in SETS]
        self.upstream = self.done = self.rows = 0
        self.sheet = "words 0"
        self.bytes = b""
        self.loaded = dict.fromkeys(LOADED, 0)

    def copy(self) -> Mirrored:
        found = Mirrored()
        found.__dict__.update(self.__dict__, lists=dict(self.lists), loaded=dict(self.loaded), flows=list(self.flows))
        return found


class MirroredShared:
    """A struct yumbaqel_shared."""

    def __init__(self) -> None:
        self.lists: dict[str, Stretch] = {}
        self.table: Table = [Slot(0, 0, 0, 0, 0)] * MOST_RIVERS

    @property
    def shortest(self) -> int:
        return min(self.lists[name].length for name in STATE_LISTS)

    def lengths(self) -> dict[str, int]:
        return {f"{name}_length": stretch.length for name, stretch in self.lists.items()}


class Mirror:
    """What header.c prints for commands, where each call of the library is the model's."""

    def __init__(self, library: dict[str, Signature], given: tuple[bytes, ...]) -> None:
        self.library = library
        self.given = given
        self.memory = {name: [first + at for at in range(count)] for name, (first, count) in MEMORY.items()}
        self.reaches = [model.Reach(*[DIRTY] * len(REACH))] * RECORDS
        self.rivers: list[Optional[Mirrored]] = [None, None]
        self.shared: Optional[MirroredShared] = None
        self.asked = (0, 0)             # limit and horizon of the next forecasts
        self.marks = False
        self.lines: list[str] = []

    # lists

    def content(self, river: Mirrored | MirroredShared, name: str) -> list[int]:
        memory, at, length = river.lists[name]
        return self.memory[memory][at:at + length]

    def write(self, river: Mirrored | MirroredShared, name: str, content: list[int]) -> None:
        memory, at, _ = river.lists[name]
        self.memory[memory][at:at + len(content)] = content

    def divide(self, river: Mirrored | MirroredShared, names: tuple[str, ...], length: int, memory: str, at: int = 0
               ) -> None:
        for number, name in enumerate(names):
            river.lists[name] = Stretch(memory, at + number * length, length)

    def lend_state(self, river: Mirrored, segments: int, words: str, wide_words: str, at: int = 0) -> None:
        self.divide(river, tuple(STATE_LISTS), segments, words, at)
        self.lend_highest(river, segments, words, at + len(STATE_LISTS) * segments)
        self.divide(river, WIDE_LISTS, segments, wide_words)
        river.upstream = river.done = 0

    @staticmethod
    def lend_highest(river: Mirrored, segments: int, words: str = "highest_words", at: int = 0) -> None:
        river.lists["highest"] = Stretch(words, at, block_count(segments))

    @staticmethod
    def lend_sides(river: Mirrored, segments: int, words: str = "side_words") -> None:
        river.lists["sides"] = Stretch(words, 0, MACROS["SIDES_WORDS"](segments))

    def lend_set(self, river: Mirrored, at: int, segments: int, words: str) -> None:
        self.divide(river, set_lists(at), segments, words)
        river.flows[at] = NO_FLOW

    def lend_loading(self, river: Mirrored, length: int, words: str) -> None:
        """The lists of a loading; nothing stays of one before."""
        self.lend_set(river, 0, length, words)
        self.lend_set(river, 1, 0, words)
        self.divide(river, tuple(OTHER_LISTS), length, words, len(SET) * length)
        self.divide(river, ROW_LISTS, 0, words)
        self.lend_sides(river, 0, words)
        river.rows, river.loaded = 0, dict.fromkeys(LOADED, 0)
        river.sheet, river.bytes = f"{words} 0", b""

    def lend(self, command: Command) -> None:
        length = command.first
        if command.name == "lend":
            river = self.rivers[command.river] = Mirrored()
            self.lend_loading(river, length, "words")
            self.lend_state(river, length, "words", "wide_words", len(COLUMNS) * length)
        elif command.name == "lend_loading":
            self.lend_loading(self.rivers[command.river], length, "river_words")
        elif command.name == "shared_lend":
            self.shared = MirroredShared()
            self.divide(self.shared, tuple(STATE_LISTS), MOST_SEGMENTS, "shared_words")
            self.divide(self.shared, WIDE_LISTS, MOST_SEGMENTS, "shared_wide_words")
        elif command.name == "shared_lend_river":
            river = self.rivers[command.river] = Mirrored()
            words = "river_words" if command.river else "words"
            self.lend_loading(river, length, words)
            self.lend_state(river, 0, words, "shared_wide_words")
            self.lend_highest(river, length, at=HIGHEST_ROOM * command.river)
        elif command.name == "lend_copy":
            river = self.rivers[command.river] = self.rivers[0].copy()
            self.lend_state(river, length, "copy_words", "copy_wide_words")
            for at in SETS if river.loaded["flow_rows"] else (1,):
                self.lend_set(river, at, 0, "copy_words")
            self.lend_sides(river, 0, "copy_words")
        elif command.name in ("set_lend", "lend_set"):
            self.lend_set(self.rivers[command.river], int(command.name == "lend_set"), length, "set_words")
        elif command.name == "lend_highest":
            self.lend_highest(self.rivers[command.river], length)
        elif command.name == "lend_sides":
            self.lend_sides(self.rivers[command.river], length)
        elif command.name == "lend_state":
            self.lend_state(self.rivers[command.river], length, "copy_words", "copy_wide_words")
        elif command.name == "lend_rows":
            self.divide(self.rivers[command.river], ROW_LISTS, length, "row_words")
            self.rivers[command.river].rows = 0
        elif command.name == "divide":
            self.divide(self.rivers[command.river], ("cb", "0.a"), length, "row_words")

    # calls

    def made(self, name: str, river: Mirrored, answer: Callable[[], None], /, **handed: int) -> Told:
        """A call of the library: number, kind and place."""
        self.record(name, river, **handed)
        if self.marks:
            return MARKS
        try:
            answer()
        except model.Refusal as refusal:
            return place_of(refusal)
        return ACCEPTED

    def call(self, name: str, river: Mirrored, answer: Callable[[], None], /, **handed: int) -> bool:
        """A helper that makes one call and tells its answer; whether it was accepted."""
        told = self.made(name, river, answer, **handed)
        self.tell(told)
        return told == ACCEPTED

    def record(self, name: str, river: Mirrored, /, **handed: int) -> None:
        values = {f"{each}_length": stretch.length for each, stretch in river.lists.items()}
        values |= {"n": river.loaded["segments"], "sheet_length": len(river.bytes), "upstream": river.upstream,
                   "done": river.done, "steps": river.loaded["steps"], **handed}
        signature = self.library[f"yumbaqel_{name}"]
        shown = "".join(f" {each} {values[each]}" for each in recorded(signature))
        self.lines.append(f" call {signature.name}{shown}")

    def tell(self, told: Told) -> None:
        self.lines.append(" told number {} kind {} place {}".format(*told))

    def lent_set(self, river: Mirrored, at: int) -> model.Lists:
        """The lists of one set alone, as the old side of a step is lent them."""
        lists = model.Lists(0)
        lists.column = {name: self.content(river, each) for name, each in zip(SET, set_lists(at))}
        return lists

    def lent(self, river: Mirrored, at: int = 0) -> tuple[model.Lists, model.State]:
        """The lists of a loading with one of the sets, and the state."""
        lists = self.lent_set(river, at)
        lists.column |= {name: self.content(river, name.lower()) for name in COLUMNS[len(SET):]}
        return lists, model.State(*(self.content(river, name) for name in STATE_LISTS), river.upstream, river.done)

    @staticmethod
    def lengths(river: Mirrored, at: int = 0, side: str = "") -> dict[str, int]:
        """The lengths of a set as a call is handed them."""
        return {f"{name}{side}_length": river.lists[each].length for name, each in zip(SET, set_lists(at))}

    def keep(self, river: Mirrored, state: model.State, highest: list[int]) -> None:
        for name, each in STATE_LISTS.items():
            self.write(river, name, getattr(state, each))
        self.write(river, "highest", highest)
        river.upstream, river.done = state.U, state.count

    def load_set(self, river: Mirrored, sheet: bytes, flow: int, at: int, records: int) -> tuple[Told, model.Loaded]:
        """A loading for a flow into one of the sets."""
        lists, _ = self.lent(river, at)
        loaded = model.Loaded(*[0] * len(LOADED))

        def answer() -> None:
            nonlocal loaded
            reaches = self.reaches[:records]
            loaded = model.load(sheet, flow, lists, reaches)
            self.reaches[:records] = reaches

        told = self.made("load", river, answer, **self.lengths(river, at), sheet_length=len(sheet), row=flow,
                         reaches_length=records)
        if told == ACCEPTED:
            for name, column in lists.column.items():
                self.write(river, f"{at}.{name}" if name in SET else name.lower(), column)
            river.flows[at] = flow
        return told, loaded

    def load(self, river: Mirrored, which: int) -> None:
        sheet = self.given[which]
        told, loaded = self.load_set(river, sheet, 0, 0, RECORDS)
        self.tell(told)
        if told == ACCEPTED:
            river.loaded = {name: getattr(loaded, each) for name, each in LOADED.items()}
            self.keep_sheet(river, which)
        self.show_reaches()

    def rows(self, river: Mirrored) -> None:
        begin = model.row_count_at(river.bytes)
        count = model.field_at(river.bytes, begin)

        def answer() -> None:
            if min(river.lists[name].length for name in ROW_LISTS) < count:
                raise model.Refusal(13)
            words = model.words(river.bytes, begin + model.FIELD, 2 * count)
            self.write(river, "starts", words[0::2])
            self.write(river, "concentrations", words[1::2])

        if self.call("rows", river, answer):
            river.rows = river.loaded["rows"]

    def upstream(self, river: Mirrored, j: int) -> None:
        u = 31

        def answer() -> None:
            nonlocal u
            rows = (self.content(river, name)[:river.rows] for name in ROW_LISTS)
            u = model.upstream(*rows, river.loaded["steps"], j)

        self.call("upstream", river, answer, starts_length=river.rows, concentrations_length=river.rows, j=j)
        self.lines.append(f" u {u}")

    def read(self, name: str, river: Mirrored, at: int, **handed: int) -> None:
        """A result that is a field of the sheet."""
        self.record(name, river, **handed)
        self.lines.append(f" {name} {RESULT_MARK if self.marks else model.field_at(river.bytes, at)}")

    def gauge(self, river: Mirrored, j: int) -> None:
        if j < river.loaded["gauges"]:
            self.read("gauge", river, river.loaded["gauges_at"] + model.FIELD * j, j=j)
        else:
            self.lines.append(" gauge 0")

    def flow(self, river: Mirrored, j: int) -> int:
        """The flow in force at a step; without flow rows nobody is asked."""
        if not river.loaded["flow_rows"]:
            return 0
        self.record("flow", river, j=j)
        return RESULT_MARK if self.marks else model.flow_in_force(river.bytes, j)

    def pair(self, river: Mirrored) -> list[int]:
        """The flows of the old and of the new side of the next step."""
        return [self.flow(river, j) for j in (river.done, river.done + 1)]

    def load_flow(self, river: Mirrored, flow: int, keep: int, records: int = RECORDS) -> Told:
        """A loading where neither set is that flow's, in place of the one that is not the kept flow's."""
        if flow in river.flows:
            return ACCEPTED
        return self.load_set(river, river.bytes, flow, int(river.flows[0] == keep), records)[0]

    def sets(self, river: Mirrored, records: int) -> None:
        old, new = self.pair(river)
        told = self.load_flow(river, old, new, records)
        self.tell(self.load_flow(river, new, old, records) if told == ACCEPTED else told)

    def start(self, river: Mirrored, u: int) -> None:
        (lists, state), highest = self.lent(river), self.content(river, "highest")
        if self.call("start", river, lambda: model.start(lists, river.loaded["segments"], state, highest, u),
                     **self.lengths(river), u=u):
            self.keep(river, state, highest)

    def step(self, river: Mirrored, u: int) -> None:
        flows = self.pair(river)
        if not set(flows) <= set(river.flows):
            self.tell(place_of(model.Refusal(13)))
            return
        old, new = map(river.flows.index, flows)
        before = self.lent_set(river, old)
        lists, state = self.lent(river, new)
        highest, p, y = (self.content(river, name) for name in ("highest", *WIDE_LISTS))
        if self.call("step", river, lambda: model.step(before, lists, river.loaded["segments"], state, highest, p, y, u,
                                                       river.loaded["steps"]),
                     **self.lengths(river, old, "0"), **self.lengths(river, new), u=u):
            self.keep(river, state, highest)
            self.write(river, "p", p)
            self.write(river, "y", y)

    def report(self, river: Mirrored, segment: int, figures: tuple[int, int, int]) -> None:
        lists, state = self.lent(river)

        def answer() -> None:
            nonlocal figures
            figures = model.report(lists, river.loaded["segments"], state, segment)

        self.call("report", river, answer, **self.lengths(river), segment=segment)
        self.lines.append(" reported channel {} storage {} sediment {}".format(*figures))

    def search(self, river: Mirrored, limit: int) -> None:
        C, highest = (self.content(river, name) for name in ("channel", "highest"))
        n = river.loaded["segments"]
        self.searched("search", river, lambda: model.search(n, C, highest, limit), 51, limit=limit)

    def searched(self, name: str, river: Mirrored, answer: Callable[[], set[int]], segment: int, /, **handed: int
                 ) -> None:
        """A search; which of several segments it names is left open, so here there must be one answer alone."""
        def found() -> None:
            nonlocal segment
            segment, = answer()

        self.call(name, river, found, **handed)
        self.lines.append(f" segment {segment}")

    def copy_state(self, to: Mirrored, source: Mirrored) -> None:
        n = source.loaded["segments"]
        wanted = dict.fromkeys(STATE_LISTS, n) | {"highest": block_count(n)}
        short = any(each.lists[name].length < entries for each in (to, source) for name, entries in wanted.items())
        if not 1 <= n <= MOST_SEGMENTS or to.loaded["segments"] != n or short:
            self.tell(place_of(model.Refusal(13)))
            return
        for name, entries in wanted.items():
            self.write(to, name, self.content(source, name)[:entries])
        to.upstream, to.done = source.upstream, source.done
        self.tell(ACCEPTED)

    def asked_of(self, copy: Mirrored, river: Mirrored, live: Mirrored | MirroredShared, gauge: int) -> dict[str, int]:
        """What a forecast is handed: the lists that it reads, those of the copy, and the question."""
        read = {f"{name}_length": live.lists[name].length for name in STATE_LISTS}
        written = {f"{name}1_length": copy.lists[name].length for name in COPY_LISTS}
        others = {f"{name}_length": copy.lists[name].length for name in ("sides", *WIDE_LISTS)}
        limit, horizon = self.asked
        return {**read, **written, **others, "highest_length": river.lists["highest"].length, "gauge": gauge,
                "limit": limit, "horizon": horizon}

    def foreseen(self, name: str, copy: Mirrored, river: Mirrored, above: int, handed: dict[str, int],
                 answer: Callable[[model.Room], Optional[int]]) -> None:
        """A forecast of a river into a copy, which stands afterwards at the step where it stops."""
        state = model.State(*(self.content(copy, each) for each in STATE_LISTS), copy.upstream, copy.done)
        room = model.Room(state, *(self.content(copy, each) for each in ("highest", "sides", *WIDE_LISTS)))

        def found() -> None:
            nonlocal above
            above = int(answer(room) is not None)

        if self.call(name, river, found, **handed):
            self.keep(copy, state, room.highest)
            for each, content in zip(("sides", *WIDE_LISTS), room[2:]):
                self.write(copy, each, content)
        self.lines.append(f" above {above}")

    def forecast(self, copy: Mirrored, river: Mirrored, gauge: int, above: int) -> None:
        live = model.State(*(self.content(river, each) for each in STATE_LISTS), river.upstream, river.done)
        highest, n = self.content(river, "highest"), river.loaded["segments"]
        self.foreseen("forecast", copy, river, above, self.asked_of(copy, river, river, gauge),
                      lambda room: model.forecast(river.bytes, n, live, highest, room, gauge, *self.asked))

    def shared_forecast(self, copy: Mirrored, river: Mirrored, number: int, gauge: int) -> None:
        shared, highest = self.shared, self.content(river, "highest")
        handed = {**self.asked_of(copy, river, shared, gauge), "river": number}
        self.foreseen("pool_forecast", copy, river, 91, handed, lambda room: self.pooled().forecast(
            number, river.bytes, shared.shortest, highest, shared.table, room, gauge, *self.asked))

    # what the rivers share: the table and the shared lists; the model's rivers are what stands there

    def pooled(self) -> model.Pool:
        return model.Pool.of(self.shared.table, *(self.content(self.shared, name) for name in STATE_LISTS))

    def shared_lists(self) -> dict[str, list[int]]:
        return {name: self.content(self.shared, name) for name in STATE_LISTS}

    def keep_pool(self, number: int, river: Mirrored, table: Table, shared: dict[str, list[int]]) -> None:
        """What an accepted opening, start or step leaves; the river's struct follows its slot."""
        self.shared.table = table
        for name, content in shared.items():
            self.write(self.shared, name, content)
        self.follow(river, number)

    def follow(self, river: Mirrored, number: int) -> None:
        if 1 <= number <= MOST_RIVERS:
            slot = self.shared.table[number - 1]
            river.upstream, river.done = slot.upstream, slot.steps

    def keep_sheet(self, river: Mirrored, which: int, length: Optional[int] = None) -> None:
        river.sheet, river.bytes, river.rows = f"sheet {which}", self.given[which][:length], 0
        river.flows = [0, NO_FLOW]

    def open(self, river: Mirrored, which: int, number: int, u: int) -> None:
        sheet, shared = self.given[which], self.shared
        lists, highest = self.lent(river)[0], self.content(river, "highest")
        loaded: Optional[model.Loaded] = None

        def answer() -> None:
            nonlocal loaded
            loaded = self.pooled().open(number, sheet, 0, lists, self.reaches, shared.shortest, highest, shared.table,
                                        u)

        if self.call("pool_open", river, answer, **self.lengths(river), **shared.lengths(), sheet_length=len(sheet),
                     row=0, reaches_length=RECORDS, river=number, u=u):
            for name, column in lists.column.items():
                self.write(river, f"0.{name}" if name in SET else name.lower(), column)
            self.write(river, "highest", highest)
            river.loaded = {name: getattr(loaded, each) for name, each in LOADED.items()}
            self.keep_sheet(river, which)
            starts = lists.column["start"][:loaded.segments]
            self.keep_pool(number, river, *after_opening(shared.table, self.shared_lists(), number, starts, u))
        self.show_reaches()

    def move(self, name: str, river: Mirrored, number: int, answer: Callable[[model.Pool, list[int]], None],
             **handed: int) -> bool:
        """A start or a step of an open river, which is lent its highest figures."""
        pool, highest = self.pooled(), self.content(river, "highest")
        handed = {**self.shared.lengths(), **handed}
        if not self.call(name, river, lambda: answer(pool, highest), **handed, river=number):
            return False
        self.write(river, "highest", highest)
        moved = after_moving(self.shared.table, self.shared_lists(), number, pool.rivers[number])
        self.keep_pool(number, river, *moved)
        return True

    def shared_start(self, river: Mirrored, number: int, u: int) -> None:
        lists, shared = self.lent(river)[0], self.shared
        self.move("pool_start", river, number,
                  lambda pool, highest: pool.start(number, lists, shared.shortest, highest, shared.table, u),
                  **self.lengths(river), u=u)

    def shared_step(self, river: Mirrored, number: int, u: int) -> None:
        shared, flows = self.shared, self.pair(river)
        if not set(flows) <= set(river.flows):
            self.tell(place_of(model.Refusal(13)))
            return
        old, new = map(river.flows.index, flows)
        before, lists = self.lent_set(river, old), self.lent(river, new)[0]
        p, y = (self.content(shared, name) for name in WIDE_LISTS)
        if self.move("pool_step", river, number,
                     lambda pool, highest: pool.step(number, before, lists, shared.shortest, highest, shared.table, p,
                                                     y, u, river.loaded["steps"]),
                     **self.lengths(river, old, "0"), **self.lengths(river, new), u=u):
            self.write(shared, "p", p)
            self.write(shared, "y", y)

    def shared_report(self, river: Mirrored, number: int, segment: int) -> None:
        lists, shared, figures = self.lent(river)[0], self.shared, (41, 42, 43)

        def answer() -> None:
            nonlocal figures
            figures = self.pooled().report(number, lists, shared.shortest, shared.table, segment)

        self.call("pool_report", river, answer, **self.lengths(river), **shared.lengths(), river=number,
                  segment=segment)
        self.lines.append(" reported channel {} storage {} sediment {}".format(*figures))

    def shared_search(self, river: Mirrored, number: int, limit: int) -> None:
        shared, highest = self.shared, self.content(river, "highest")
        length = shared.lists["channel"].length
        self.searched("pool_search", river, lambda: self.pooled().search(number, length, highest, shared.table, limit),
                      61, **shared.lengths(), river=number, limit=limit)

    def close(self, river: Mirrored, number: int) -> None:
        if self.call("pool_close", river, lambda: self.pooled().close(number, self.shared.table), river=number):
            self.shared.table = after_closing(self.shared.table, number)

    def do_shared(self, command: Command) -> None:
        river, name, first, second = self.rivers[command.river], command.name, command.first, command.second
        which = SHEETS.index(command.field) if command.field in SHEETS else 0
        if name == "open":
            self.open(river, which, first, second)
        elif name in ("shared_start", "shared_step", "shared_report", "shared_search"):
            getattr(self, name)(river, first, second)
        elif name == "shared_forecast":
            self.shared_forecast(river, self.rivers[1 - command.river], first, second)
        elif name == "close":
            self.close(river, first)
        elif name == "follow":
            self.follow(river, first)
        elif name == "keep":
            self.keep_sheet(river, which, second)
        elif name == "shared_length":
            self.shared.lists[command.field] = self.shared.lists[command.field]._replace(length=first)
        elif name == "shared_put":
            memory, at, _ = self.shared.lists[command.field]
            self.memory[memory][at + first] = second
        elif name == "shared_working":
            for each, length in zip(WIDE_LISTS, (first, second)):
                self.shared.lists[each] = self.shared.lists[each]._replace(length=length)
        elif name == "slot":
            self.shared.table = replaced(self.shared.table, first, **{command.field: second})

    def do(self, command: Command) -> None:
        """One command, then both rivers and what they share as they stand."""
        self.lines.append(str(command))
        self.lend(command)
        river, name, first = self.rivers[command.river], command.name, command.first
        if name in ("load", "start", "step", "search", "upstream", "gauge", "sets"):
            getattr(self, name)(river, first)
        elif name == "flow":
            self.lines.append(f" flow {self.flow(river, first)}")
        elif name == "set":
            self.lines.append(f" set {river.flows.index(first) if first in river.flows else -1}")
        elif name == "load_flow":
            self.tell(self.load_flow(river, first, command.second))
        elif name == "rows":
            self.rows(river)
        elif name in ("dt", "dx"):
            self.read(name, river, len(model.MARK) + model.FIELD * model.Header._fields.index(name))
        elif name == "report":
            self.report(river, first, (21, 22, 23))
        elif name == "report_by_macros":
            self.report(river, first, (11, 12, 13))
        elif name == "copy_state":
            self.copy_state(river, self.rivers[first])
        elif name == "ask":
            self.asked = first, command.second
        elif name in ("forecast", "forecast_by_macros"):
            self.forecast(river, self.rivers[1 - command.river], first, 81 if name == "forecast" else 71)
        elif name == "length":
            river.lists[command.field] = river.lists[command.field]._replace(length=first)
        elif name == "working":
            for each, length in zip(WIDE_LISTS, (first, command.second)):
                river.lists[each] = river.lists[each]._replace(length=length)
        elif name == "put":
            memory, at, _ = river.lists[command.field]
            self.memory[memory][at + first] = command.second
        elif name in ("segments", "steps"):
            river.loaded[name] = first
        elif name == "done":
            river.done = first
        elif name == "marks":
            self.marks = bool(first)
        self.do_shared(command)
        for each in self.rivers:
            if each is not None:
                self.show(each)
        if self.shared is not None:
            self.show_shared()

    def show_reaches(self) -> None:
        self.lines += [" reach" + "".join(f" {name} {getattr(reach, each)}" for name, each in REACH.items())
                       for reach in self.reaches]

    def show_shared(self) -> None:
        self.lines.append(" shared")
        for name in STATE_LISTS:
            self.show_list(self.shared, name, SHARED_SHOWN)
        for name in WIDE_LISTS:
            self.show_list(self.shared, name)
        self.lines += [" slot" + "".join(f" {name} {figure}" for name, figure in slot._asdict().items())
                       for slot in self.shared.table]

    def show_list(self, river: Mirrored | MirroredShared, name: str, shown: int = SHOWN) -> None:
        memory, at, length = river.lists[name]
        content = "".join(f" {figure}" for figure in self.content(river, name)[:shown])
        self.lines.append(f" {name.split('.')[-1]} {memory} {at} {length}:{content}")

    def show(self, river: Mirrored) -> None:
        for at in SETS:
            self.lines.append(f" set {at} flow {river.flows[at]}")
            for name in set_lists(at):
                self.show_list(river, name)
        for name in (*LISTS, *WIDE_LISTS):
            self.show_list(river, name)
        loaded = "".join(f" {name} {figure}" for name, figure in river.loaded.items())
        self.lines.append(f" upstream {river.upstream} done {river.done} rows {river.rows} sheet {river.sheet} "
                          f"length {len(river.bytes)}")
        self.lines.append(f" loaded{loaded}")


def distinct_draft() -> sheets.Draft:
    """Two reaches in five segments: no two fields of a reach, header or row and no two lists are the same."""
    first = model.Reach(segments=3, D=5_000, A=10_000, AS=2_000, ALPHA=1_000_000, qin=3_000, qout=1_100, CL=500,
                        LAMBDA=100_000, LAMBDA2=200_000, LAMHAT=5_000_000, LAMHAT2=3_000_000, RHO=110_000, Kd=5,
                        CB=70, start=1_200)
    second = model.Reach(segments=2, D=5_100, A=12_000, AS=2_100, ALPHA=1_300_000, qin=3_200, qout=1_300, CL=90_000,
                         LAMBDA=140_000, LAMBDA2=250_000, LAMHAT=6_000_000, LAMHAT2=3_500_000, RHO=120_000, Kd=9,
                         CB=80, start=3_300)
    return sheets.Draft(model.Header(dt=10, dx=1_000, M=7, interval=6, top_flow=20_000), [first, second],
                        [Row(0, 7_000), Row(2, 900_000), Row(3, 0), Row(5, 44_000)], [1, 3, 5])


def with_flows_and_bands(draft: sheets.Draft) -> sheets.Draft:
    """The same with four flow rows: one at step 1, two one behind the other, one at M, and no two flows alike.

    The second reach has other areas and dispersion while the flow is above 30,000 mL/s.
    """
    flowing = draft.with_flows((1, 25_000), (3, 15_000), (4, 40_000), (draft.header.M, 31_000))
    return flowing.with_bands([], sheets.parted(30_000, (12_000, 5_100, 2_100), (17_000, 6_100, 4_300)))


def commands(draft: sheets.Draft) -> list[Command]:
    """Every helper, accepted and refused, on lists of different lengths, before a loading and after it."""
    flowing = with_flows_and_bands(draft)
    return [Command.of(line) for line in (*plain_commands(draft), *flow_commands(flowing), *shared_commands(flowing))]


def plain_commands(draft: sheets.Draft) -> list[str]:
    """On sheets without flow rows."""
    n, M = draft.segments, draft.header.M
    lent = (*set_lists(0), *OTHER_LISTS, *STATE_LISTS)
    found = [f"lend 0 {ROOM}", "rows 0", "upstream 0", "gauge 0", "dt 0", "dx 0", "flow 0 3", "set 0 0", "start 0 5",
             "step 0 6", "report 0 1", "search 0 5", "copy_state 0", f"sets 0 {RECORDS}"]
    found += [f"length 0 {name} {ROOM - at}" for at, name in enumerate(lent)]
    found.append(f"length 0 highest {MOST_BLOCKS + 2}")
    found += [f"working 0 {ROOM - 20} {ROOM - 21}", "load 0 1", "load 0", "load 0 1", "rows 0", "upstream 0",
              f"lend_rows 0 {ROW_ROOM}", f"length 0 starts {ROW_ROOM - 1}", f"length 0 concentrations {ROW_ROOM - 2}",
              "upstream 0", "rows 0", f"length 0 0.e {n - 1}", "load 0", f"length 0 0.e {ROOM}"]
    found += [f"upstream 0 {j}" for j in range(M + 2)]
    found += [f"put 0 starts 1 {M + 1}", "upstream 0 1", "rows 0"]
    found += [f"gauge 0 {j}" for j in range(len(draft.gauges) + 1)]
    found += ["dt 0", "dx 0", "flow 0 1", f"start 0 {HIGHEST + 1}", "start 0 700", "step 0 8000", f"sets 0 {RECORDS}",
              "step 0 650000", "step 0 31000"]
    found += [f"{name} 0 {segment}" for segment in range(n + 2) for name in ("report", "report_by_macros")]
    found += search_commands(n)
    found += [f"put 0 kd 2 {HIGHEST_KD + 1}", "start 0 1", "step 0 1", "report 0 1", "load 0", "rows 0"]
    # a copy with its own state, which runs on while the river stays
    found += [f"lend_copy 1 {ROOM}", *(f"length 1 {name} {ROOM - 30 - at}" for at, name in enumerate(STATE_LISTS)),
              f"working 1 {ROOM - 40} {ROOM - 41}", f"length 1 highest {MOST_BLOCKS + 1}", "copy_state 1",
              "step 1 52000", "step 1 53000", f"report 1 {n}", f"search 1 {HIGHEST}", "gauge 1 1", "upstream 1 2",
              "step 0 61000", "copy_state 0 1", "step 1 54000"]
    # states that do not fit, by one list and by the count of segments
    found.append(f"steps 0 {MOST_STEPS}")
    for river in (0, 1):
        for name in STATE_LISTS:
            found += [f"length {river} {name} {n - 1}", "copy_state 1", f"length {river} {name} {n}", "copy_state 1",
                      f"length {river} {name} {ROOM - lent.index(name) - 20 * river}", f"step 0 {70_000 + len(found)}"]
        for segments in (n, MOST_SEGMENTS):
            found += [f"segments 0 {segments}", f"segments 1 {segments}", f"put 0 highest 0 {len(found)}"]
            found += [line for length in (block_count(segments) - 1, block_count(segments))
                      for line in (f"length {river} highest {length}", "copy_state 1")]
            found += [f"length {river} highest {MOST_BLOCKS + 2 - river}", f"segments 0 {n}", f"segments 1 {n}"]
    for here, there in ((n, n - 1), (n - 1, n), (0, 0), (1, 1), (MOST_SEGMENTS, MOST_SEGMENTS),
                        (MOST_SEGMENTS + 1, MOST_SEGMENTS + 1), (n, n)):
        found += [f"step 0 {80_000 + here}", f"segments 0 {here}", f"segments 1 {there}", "copy_state 1",
                  f"segments 0 {n}"]
    found += forecast_commands(draft)
    found += [f"lend_copy 1 {ROOM}", f"lend_state 1 {ROOM - 9}", "divide 1 6", "load 0", f"lend_rows 0 {ROW_ROOM - 1}",
              "steps 0 3", "step 0 1"]
    found += [f"lend_highest 1 {segments}" for segments in (0, 1, 16, 17, 33, MOST_SEGMENTS)]
    found += ["marks 0 1", "load 0 1", "rows 0", "upstream 0 1", "gauge 0 1", "dt 0", "dx 0", "start 0 1", "step 0 1",
              "report 0 1", "search 0 1", "marks 0"]
    return found


def copy_commands() -> list[str]:
    """A copy for forecasts, whose lists have lengths of their own; it does not share the sides that its river has."""
    return [f"lend_sides 0 {ROOM - 3}", f"lend_copy 1 {ROOM}", f"working 1 {ROOM - 40} {ROOM - 41}",
            *(f"length 1 {name} {ROOM - 30 - at}" for at, name in enumerate(STATE_LISTS)),
            f"length 1 highest {MOST_BLOCKS + 1}"]


def forecast_commands(draft: sheets.Draft) -> list[str]:
    """Forecasts of the first river into the other: at once, later, never, and refused by each test."""
    n, M, last = draft.segments, draft.header.M, draft.gauges[-1]
    found = ["load 0", f"steps 0 {M}", "start 0 700", "step 0 8000", "step 0 650000", *copy_commands()]
    found += [f"ask 0 2000 {M - 2}", "forecast 1 1", f"lend_sides 1 {ROOM}", f"length 1 sides {24 * ROOM - 5}"]
    found += [line for gauge in draft.gauges for limit in (0, 30_000, sheets.HIGHEST_FIELD)
              for line in (f"ask 0 {limit} {M - 2}", f"forecast 1 {gauge}")]
    found += [f"ask 0 30000 {M - 3}", f"forecast_by_macros 1 {last}", f"ask 0 0 {M - 1}", f"forecast 1 {last}",
              "ask 0 0 1", "forecast 1 2", f"ask 0 {HIGHEST} 0", f"forecast 1 {last}", "search 1 30000"]
    found += [f"put 0 sediment 3 {HIGHEST + 1}", "forecast 1 1", "put 0 sediment 3 5", f"ask 0 {HIGHEST} 1"]
    found += [line for done in (MOST_STEPS + 1, M + 1, M - 1) for line in (f"done 0 {done}", "forecast 1 1")]
    found += [line for segments in (n - 1, n) for line in (f"segments 0 {segments}", "forecast 1 1")]
    # answers that are marks; and a river that is not loaded, which has no sheet
    return [*found, "marks 0 1", "forecast 1 1", "forecast_by_macros 1 1", "marks 0", f"lend 0 {ROOM}", "forecast 1 1",
            "load 0"]


def search_commands(n: int) -> list[str]:
    """Searches that have one answer each, and calls with too few highest figures; the three lists differ."""
    found = [f"put 0 {name} {at} {1_000 * number + 10 * (at * 3 % n)}" for number, name in enumerate(STATE_LISTS)
             for at in range(n)]
    top = 10 * (n - 1)              # of the channel figures
    found += [f"put 0 highest 0 {top}", f"put 0 highest 1 {sheets.HIGHEST_FIELD}"]
    found += [f"search 0 {limit}" for limit in (top - 1, top - 9, top, top + 1, sheets.HIGHEST_FIELD)]
    found += [f"put 0 highest 0 {top - 5}", f"search 0 {top - 5}", f"search 0 {top - 6}", f"put 0 highest 0 {HIGHEST}",
              f"search 0 {top}", f"search 0 {top - 1}"]
    found += [line for length in (0, 1) for line in (f"length 0 highest {length}", f"search 0 {top - 1}", "step 0 7",
                                                     "start 0 5", "report 0 1")]
    return [*found, f"length 0 highest {MOST_BLOCKS + 2}"]


def flow_commands(draft: sheets.Draft) -> list[str]:
    """On the sheet with flow rows, which is the third."""
    n, M, last = draft.segments, draft.header.M, len(draft.flow_rows)
    prepared = f"sets 0 {RECORDS}"
    # one set is not enough where a row begins to hold; the second one has lengths of its own
    found = [f"lend 0 {ROOM}", "load 0 2", "start 0 700", prepared, "step 0 5", f"lend_set 0 {ROOM}",
             *(f"length 0 {name} {ROOM - 50 - at}" for at, name in enumerate(set_lists(1))), "set 0 0", "step 0 5"]
    found += [f"flow 0 {j}" for j in range(M + 2)]
    # each row's set, once; without it the step is refused, and so where the list of records is short
    for j in range(M):
        found += [f"step 0 {40_000 + j}", f"sets 0 {len(draft.reaches) - 1}", prepared, prepared,
                  f"step 0 {50_000 + j}", f"report 0 {n}"]
    found += [f"set 0 {flow}" for flow in range(last + 2)]
    # on past M, from the start again, and from a step in the middle of a flow and between two
    found += [f"steps 0 {MOST_STEPS}", prepared, "step 0 60000", "start 0 800", "step 0 61000", prepared,
              "step 0 62000"]
    for at, done in enumerate((3, 1, 4, 2, M - 1, 0, M + 3)):
        found += [f"done 0 {done}", prepared, f"step 0 {63_000 + at}"]
    # a flow loaded by its number, in place of the one that is not kept
    found += [f"load_flow 0 {flow} {keep}" for flow, keep in ((2, last), (2, 2), (3, 2), (0, 3), (1, 0), (last + 1, 1))]
    # a copy holds a state and has no set
    found += [f"lend_copy 1 {ROOM}", "copy_state 1", "report 1 1", f"search 1 {HIGHEST}", "put 1 channel 3 900000000",
              "put 1 highest 0 900000000", "search 1 899999999", f"sets 1 {RECORDS}", "step 1 9", "load 1 2",
              f"set_lend 1 {n}", "load 1 2", "report 1 2"]
    # forecasts over flow rows that begin to hold; the copy takes them without a set
    found += ["load 0 2", "start 0 700", *copy_commands(), f"lend_sides 1 {n}"]
    for done in (0, 2, M - 1, M):
        found += [f"done 0 {done}", f"ask 0 {HIGHEST} {M - done}", f"forecast 1 {1 + 2 * (done % 3)}", "report 1 1"]
    found += ["marks 0 1", "flow 0 2", prepared, "load_flow 0 2 1", "step 0 1", "marks 0"]
    # a sheet without flow rows again, and one that is refused
    found += ["load 0 1", "load 0", "set 0 1", "step 0 7"]
    return found


def shared_commands(draft: sheets.Draft) -> list[str]:
    """Two rivers of a pool: that of the sheet with flow rows, which is the third, and that of the first."""
    n, M = draft.segments, draft.header.M
    prepared = f"sets 0 {RECORDS}"
    lent = (*set_lists(0), *OTHER_LISTS)
    found = ["shared_lend 0", f"shared_lend_river 0 {ROOM}", f"shared_lend_river 1 {ROOM - 1}", f"lend_set 0 {ROOM}",
             *(f"length {river} {name} {ROOM - 20 * river - at}" for river in (0, 1) for at, name in enumerate(lent)),
             *(f"length 0 {name} {ROOM - 50 - at}" for at, name in enumerate(set_lists(1))),
             *(f"shared_length 0 {name} {MOST_SEGMENTS + 3 - at}" for at, name in enumerate(STATE_LISTS)),
             *(f"length {river} highest {MOST_BLOCKS + 4 - river}" for river in (0, 1)),
             f"shared_working 0 {MOST_SEGMENTS - 1} {MOST_SEGMENTS - 2}"]
    # nothing is open; a river of the pool has no state of its own
    calls = ("shared_start {0} {1} 5", "shared_step {0} {1} 6", "shared_report {0} {1} 1",
             f"shared_search {{0}} {{1}} {HIGHEST}", "close {0} {1}")
    found += [call.format(0, 3) for call in calls]
    found += ["load 0 2", "start 0 5", prepared, "step 0 6", "report 0 1", "search 0 1"]
    # openings, refused and accepted
    found += ["open 0 other 3 700", f"open 0 third 3 {HIGHEST + 1}", "open 0 third 0 700", "open 0 third 9 700",
              "length 0 highest 0", "open 0 third 3 700", "length 0 highest 1",
              "open 0 third 3 700", "open 0 third 3 701", "open 1 first 3 800", "open 1 first 8 800"]
    # searches that have one answer each, on either stretch; with too few highest figures
    for river, number in enumerate((3, 8)):
        found += [f"shared_put 0 {name} {n * river + at} {1_000 * part + 100 * river + 10 * (at * 3 % n)}"
                  for part, name in enumerate(STATE_LISTS) for at in range(n)]
        found += [f"put {river} highest 0 {100 * river + 10 * (n - 1)}"]
    for river, number in enumerate((3, 8)):
        top = 100 * river + 10 * (n - 1)
        found += [f"shared_search {river} {number} {limit}" for limit in (top - 1, top, top + 1)]
        found += [f"put {river} highest 0 {top - 5}", f"shared_search {river} {number} {top - 5}",
                  f"shared_search {river} {number} {top - 6}"]
        found += [line for length in (0, 1) for line in (
            f"length {river} highest {length}", f"shared_search {river} {number} {top - 6}",
            f"shared_start {river} {number} 5", f"shared_step {river} {number} 6")]
        found.append(f"length {river} highest {MOST_BLOCKS + 4 - river}")
    # the sets of each step, as of a river alone; the two in turn
    for j in range(M):
        found += [f"shared_step 0 3 {40_000 + j}", prepared, f"shared_step 0 3 {50_000 + j}",
                  f"shared_step 1 8 {60_000 + j}", f"shared_report 0 3 {1 + j % n}", f"shared_report 1 8 {1 + j % n}"]
    found += ["shared_step 1 8 1", f"shared_report 0 3 {n + 1}", f"shared_start 0 3 {HIGHEST + 1}",
              "shared_start 0 3 900", "shared_step 0 3 8", prepared, "shared_step 0 3 9", "shared_start 1 8 901",
              "steps 1 2", "shared_step 1 8 10", "shared_step 1 8 11", "shared_step 1 8 12"]
    # a number outside 1 to 8 has no slot to follow
    found += [f"follow 0 {number}" for number in (8, 0, MOST_RIVERS + 1, sheets.HIGHEST_FIELD, 1, 3)]
    # numbers, short lists, and tables at fault
    for number in (0, 9, 4):
        found += [call.format(0, number) for call in calls]
    for at, name in enumerate(STATE_LISTS):
        found += [f"shared_length 0 {name} {MOST_SEGMENTS - 1}", "open 1 first 1 5",
                  *(call.format(1, 8) for call in calls[:4]), f"shared_length 0 {name} {MOST_SEGMENTS + 3 - at}"]
    found += [f"shared_working 0 {n - 1} {n}", "shared_step 1 8 5", f"shared_working 0 {n} {n - 1}",
              "shared_step 1 8 5", f"shared_working 0 {MOST_SEGMENTS - 1} {MOST_SEGMENTS - 2}"]
    for name, figure in (("first", n - 1), ("first", MOST_SEGMENTS), ("segments", MOST_SEGMENTS)):
        found += [f"slot 0 {name} 8 {figure}", "open 0 third 1 5", *(call.format(0, 3) for call in calls),
                  f"slot 0 {name} 8 {n}"]
    # closed and opened again, which moves the other one; then a sheet that is kept alone
    found += ["slot 0 opened 8 77", "close 0 3", "shared_step 0 3 5", "open 0 first 5 600", "shared_report 1 8 2",
              "shared_step 0 5 30", "shared_start 1 8 31", "close 1 8", "close 1 8", "open 1 third 8 32",
              f"sets 1 {RECORDS}", "shared_report 1 8 3", "marks 0 1", "open 0 first 2 1",
              *(call.format(0, 5) for call in calls), "marks 0",
              *shared_forecast_commands(n, M), "keep 0 third 77", f"lend_loading 0 {ROOM - 3}", "shared_lend 0"]
    return found


def shared_forecast_commands(n: int, M: int) -> list[str]:
    """Forecasts of the river of number 5 into a copy that has its own lists; number 8 is open beside it."""
    asked = "shared_forecast 1 5 1"
    found = ["shared_step 0 5 70000", "ask 0 500 3", asked, *copy_commands(), asked, f"lend_sides 1 {ROOM - 1}",
             f"length 1 sides {24 * ROOM - 7}"]
    for gauge, limit, horizon in ((1, 0, 0), (3, 500, 3), (n, HIGHEST, M - 2), (2, 0, 0), (1, 0, M)):
        found += [f"ask 0 {limit} {horizon}", f"shared_forecast 1 5 {gauge}"]
    found += [f"ask 0 {HIGHEST} 1", *(f"shared_forecast 1 {number} 1" for number in (0, 9, 4, 8))]
    for at, name in enumerate(STATE_LISTS):
        found += [f"shared_length 0 {name} {MOST_SEGMENTS - 1}", asked,
                  f"shared_length 0 {name} {MOST_SEGMENTS + 3 - at}"]
    found += ["length 0 highest 0", asked, "length 0 highest 1", asked, f"slot 0 upstream 5 {HIGHEST + 1}", asked,
              "slot 0 upstream 5 77", asked]
    return [*found, "marks 0 1", asked, "marks 0"]
