"""Forecasts put to the library and to the model, of a river alone and of one on a pool.

The live river stands on its caller's shelf and is only read.  All that a forecast may write stands on a shelf of its
own, its room: the copies, the list for both sides of a step, the working lists, and what is handed out.  After each
call every byte of both is compared, so that a live river that moves by a byte shows, and so does an entry behind the
river that does not stay.
"""
from __future__ import annotations

import random
from collections.abc import Iterator
from dataclasses import replace
from typing import NamedTuple, Optional

import model
from calls import ACCEPTED, Answer, Caller, Difference, Shelf, Tally, Told, draw_word, draw_words
from library import FIGURES, WORKING, Library, Slice, U32
from model import SIDES, State, block_count
from pools import PoolCalls

LIVE = (*FIGURES, "highest")
COPIES = tuple(f"{name}1" for name in LIVE)
ROOM = (*COPIES, "sides", *WORKING)     # the lists that a forecast may write
HANDED = ("above", "upstream1", "done1")

# An accepted forecast by where the gauge is first above the limit; never is accepted, too
AT_ONCE: Answer = (0, "at once")
LATER: Answer = (0, "later")
AT_THE_END: Answer = (0, "at the end")
NEVER: Answer = ACCEPTED
FOUND = {AT_ONCE, LATER, AT_THE_END, NEVER}


class Question(NamedTuple):
    """What the keeper enters: a gauge by its segment's number, a limit, and how many steps to look ahead."""

    gauge: int
    limit: int
    horizon: int


def copied(state: State) -> State:
    return replace(state, C=list(state.C), Z=list(state.Z), W=list(state.W))


def states(sheet: bytes) -> Iterator[State]:
    """An accepted sheet's river as its start leaves it, and then after each step, by the model's calls."""
    found, rivers = model.rivers_on(sheet)
    n, lists = len(rivers[0]), model.Lists(len(rivers[0]))
    lists.fill(rivers[0])
    begun = State.of_length(n)
    starts, concentrations = (list(each) for each in zip(*found.rows))
    model.start(lists, n, begun, [0] * block_count(n), model.upstream(starts, concentrations, found.header.M, 0))
    yield begun
    yield from (copied(after.state) for after in model.run(sheet))


def entries(name: str, n: int) -> int:
    """How many entries of a list 13 wants for n segments."""
    return {"highest": block_count(n), "highest1": block_count(n), "sides": SIDES * n}.get(name, n)


def lend_room(rng: random.Random, n: int, lengths: Optional[Told] = None) -> Shelf:
    """All that a forecast of n segments may write, with any content; the lists go on behind them, or are so long."""
    room = Shelf()
    for name in ROOM:
        more = rng.choice((0, 1, SIDES - 1, SIDES, SIDES * 3 + 5)) if name == "sides" else rng.randrange(3)
        length = (lengths or {}).get(name, entries(name, n) + more)
        if name in WORKING:
            room.add(name, [rng.getrandbits(64) for _ in range(length)], 8)
        else:
            room.add(name, draw_words(rng, length))
    for name in HANDED:
        room.add(name, [draw_word(rng)])
    return room


def dirty(rng: random.Random, room: Shelf) -> None:
    """Any content in what is handed out and in front of the lists, as another forecast may have left it."""
    for name in HANDED:
        room.put(name, [draw_word(rng)])
    for name in ROOM:
        content = room.content[name]
        if content:
            at = rng.randrange(len(content))
            room.put(name, [*content[:at], draw_word(rng), *content[at + 1:]])


def model_room(room: Shelf, told: Told) -> model.Room:
    """The room as the model is lent it, at the lengths told."""
    content = {name: room.content[name][:told.get(name)] for name in ROOM}
    copy = State(*(content[f"{name}1"] for name in FIGURES))
    return model.Room(copy, content["highest1"], content["sides"], content["p"], content["y"])


def keep_room(room: Shelf, written: model.Room, above: bool) -> None:
    """What an accepted forecast leaves."""
    copy = written.copy
    for name, content in zip(ROOM, (copy.C, copy.Z, copy.W, *written[1:])):
        room.content[name][:len(content)] = content
    for name, figure in zip(HANDED, (int(above), copy.U, copy.count)):
        room.content[name] = [figure]


def accepted_as(found: Optional[int], count: int, horizon: int) -> Answer:
    if found is None:
        return NEVER
    return AT_ONCE if found == count else AT_THE_END if found == count + horizon else LATER


def room_slices(room: Shelf, told: Told) -> list:
    """The room as C is lent it, in its order."""
    lists = {name: room.lent(name, told) for name in ROOM}
    handed = [room.buffers[name] for name in HANDED[1:]]
    return [*(lists[name] for name in COPIES), *handed, lists["sides"], lists["p"], lists["y"]]


def settled(caller: Caller, name: str, room: Shelf, refusal: Optional[model.Refusal], what: str, accepted: Answer
            ) -> bool:
    """Compares all that was lent; says whether the forecast was accepted."""
    room.compare(f"{name}, {what}")
    return caller.settle(name, refusal, what, accepted)


class Live(Caller):
    """A live river on the shelf, with its sheet; the lists may have any content and length."""

    def __init__(self, library: Library, rng: random.Random, tally: Tally, sheet: bytes, state: State,
                 highest: list[int]) -> None:
        super().__init__(library, rng, tally)
        self.shelf.add("sheet", list(sheet), 1)
        for name, content in zip(LIVE, (state.C, state.Z, state.W, highest)):
            self.shelf.add(name, content)
        self.shelf.add("upstream", [state.U])
        self.shelf.add("done", [state.count])


def forecast(caller: Caller, n: int, asked: Question, room: Shelf, told: Optional[Told] = None) -> bool:
    """A forecast of the river on the caller's shelf, whose lists and the room's are told to be so long."""
    shelf, told = caller.shelf, told or {}
    U, count = shelf.content["upstream"][0], shelf.content["done"][0]
    live = State(*(shelf.content[name][:told.get(name)] for name in FIGURES), U, count)
    highest = shelf.content["highest"][:told.get("highest")]
    lent, found, refusal = model_room(room, told), None, None
    caller.dirty()
    try:
        found = model.forecast(bytes(shelf.content["sheet"]), n, live, highest, lent, *asked)
        keep_room(room, lent, found is not None)
    except model.Refusal as refused:
        refusal = refused
    live_lists: list[Slice] = [shelf.lent(name, told) for name in LIVE]
    caller.library.call("forecast", *caller.references(), room.buffers["above"], U32(n), shelf.whole("sheet"),
                        *live_lists, U32(U), U32(count), *room_slices(room, told), *map(U32, asked))
    return settled(caller, "forecast", room, refusal, f"n {n}, {asked}, told {told}",
                   accepted_as(found, count, asked.horizon))


def pool_forecast(pool: PoolCalls, number: int, sheet: bytes, asked: Question, room: Shelf,
                  told: Optional[Told] = None) -> bool:
    """A forecast of the river of this number; the shared lists, its highest figures and the room's lists are told to be
    so long."""
    shelf, told = pool.shelf, told or {}
    shelf.add("sheet", list(sheet), 1)
    highest, lent, found, refusal = pool.highest(number, told), model_room(room, told), None, None
    pool.dirty()
    try:
        found = pool.pool.forecast(number, sheet, pool.shortest(told), highest, pool.table, lent, *asked)
        keep_room(room, lent, found is not None)
    except model.Refusal as refused:
        refusal = refused
    pool.library.call("pool_forecast", *pool.references(), room.buffers["above"], U32(number), shelf.whole("sheet"),
                      *pool.shared_slices(told), pool.highest_slice(number, told), shelf.buffers["table"],
                      *room_slices(room, told), *map(U32, asked))
    count = pool.table[number - 1].steps if refusal is None else 0
    return settled(pool, "pool_forecast", room, refusal, f"number {number}, {asked}, told {told}",
                   accepted_as(found, count, asked.horizon))


def answer(caller: Caller) -> int:
    return caller.shelf.content["number"][0]


def must(caller: Caller, wanted: int, what: str) -> None:
    """The answer is the one that the making of the case decides; library and model were compared before."""
    if answer(caller) != wanted:
        raise Difference(f"{what}: answer {answer(caller)}, not {wanted}")


def must_find(room: Shelf, wanted: Optional[int], what: str) -> None:
    """An accepted forecast names this step, or none."""
    above, done = (room.content[name][0] for name in ("above", "done1"))
    if (above, done if wanted is not None else None) != (int(wanted is not None), wanted):
        raise Difference(f"{what}: above {above}, step {done}, not {wanted}")
