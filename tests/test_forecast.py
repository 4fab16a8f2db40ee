"""Tests forecasts over the library's boundary, of a river alone and of one on a pool.

    python3 tests/test_forecast.py PATH_TO_ARCHIVE [--seed N] [--long [--minutes N]]

Forecasts, accepted and refused, are put to the library and to the model.  After each of them every byte that was lent
is compared: the sheet and the live river, which must stay as they are, the copies, the list for both sides of a step,
the working lists, and the guard words around them.  Then as many step calls with the sheet's pairs, U' and M, and
reports of the gauge, are put to the library itself: they must say what the forecast said and leave what its copies
hold, and the exact river fed the same calls lies within 6 x n of them.
The exit status is 0 only when every group ran, showed every answer that it must and agreed.
"""
from __future__ import annotations

import json
import random
import sys
from collections.abc import Callable, Iterator
from itertools import chain, product
from pathlib import Path
from typing import Any, NamedTuple, Optional

import groups
import model
import sheets
from calls import ACCEPTED, Caller, Difference, Run, Shelf, Tally, Told, draw_word, draw_words, some_limit
from forecasts import (AT_ONCE, AT_THE_END, COPIES, FOUND, LATER, LIVE, NEVER, ROOM, Live, Question, answer, copied,
                       dirty, entries, forecast, lend_room, must, must_find, pool_forecast, states)
from groups import Group, Trial
from library import FIGURES, KINDS, WORKING, Library
from model import (HIGHEST, MOST_RIVERS, MOST_SEGMENTS, MOST_STEPS, SIDES, Slot, State, Table, block_count,
                   highest_figures)
from pools import NUMBERS, OUTSIDE, PoolCalls, PoolRun, replaced
from searches import LENGTHS, begun, stepped
from sheets import HIGHEST_FIELD

VECTORS = Path(__file__).parent / "vectors" / "request-07" / "calls.json"
PLAIN = (sheets.plain(), sheets.plain_flows(), sheets.plain_bands())     # 9 segments, 6 steps, gauges 1, 5 and 9


# Live rivers


def figures(rng: random.Random, n: int) -> State:
    """A state of any figures that pass 14."""
    return State(*([sheets.concentration(rng) for _ in range(n)] for _ in FIGURES), sheets.concentration(rng))


def lengthened(rng: random.Random, state: State, highest: list[int], more: int) -> tuple[State, list[int]]:
    """Lists that go on behind the river with any content."""
    C, Z, W, longer = (content + [draw_word(rng) for _ in range(more)]
                       for content in (state.C, state.Z, state.W, highest))
    return State(C, Z, W, state.U, state.count), longer


def live_of(library: Library, rng: random.Random, tally: Tally, sheet: bytes, state: State,
            highest: Optional[list[int]] = None, more: int = 2) -> Live:
    """A live river in that state, with true highest figures unless they are given."""
    return Live(library, rng, tally, sheet, *lengthened(rng, state, highest or highest_figures(state.C), more))


def copy_at(room: Shelf, n: int) -> State:
    """What the copies hold of the river."""
    content = room.content
    return State(*(content[f"{name}1"][:n] for name in FIGURES), content["upstream1"][0], content["done1"][0])


def hold_copy(room: Shelf, wanted: State, what: str) -> None:
    found = copy_at(room, len(wanted.C))
    if found != wanted:
        raise Difference(f"{what}: the copies hold {found}, not {wanted}")


# The vectors: cases of an independent hand


def told_as(caller: Caller, room: Shelf) -> list[Any]:
    """The latest answer as the vectors write it."""
    number, kind, place = (caller.shelf.content[name][0] for name in ("number", "kind", "place"))
    if number:
        return ["refused", number, [KINDS[kind], place] if kind else None]
    return ["step", room.content["done1"][0]] if room.content["above"][0] else ["none"]


def vector(case: dict[str, Any]) -> Trial:
    """A forecast of a river alone; every copy is filled with 7 before."""
    def trial(library: Library, rng: random.Random, tally: Tally) -> None:
        n, lengths = case["n"], {f"{name}1": length for name, length in case["room"].items()}
        state = State(*(case[name] for name in FIGURES), case["U"], case["count"])
        live = Live(library, rng, tally, bytes.fromhex(case["sheet"]), state, case["highest"])
        room = lend_room(rng, min(n, MOST_SEGMENTS + 1), lengths)
        for name in (*COPIES, "upstream1", "done1"):
            room.put(name, [7] * len(room.content[name]))
        forecast(live, n, Question(case["gauge"], case["limit"], case["horizon"]), room)
        held = {name: room.content[f"{name}1"] for name in LIVE}
        held |= {"U": room.content["upstream1"][0], "count": room.content["done1"][0]}
        if told_as(live, room) != case["answer"]:
            raise Difference(f"{case['what']}: {told_as(live, room)}, not {case['answer']}")
        if case["answer"][0] != "refused" and held != case["copies"]:
            raise Difference(f"{case['what']}: the copies are {held}, not {case['copies']}")
    return trial


def pool_vector(case: dict[str, Any]) -> Trial:
    """A list of calls on a pool, begun with no river open."""
    def trial(library: Library, rng: random.Random, tally: Tally) -> None:
        pool, opened = PoolCalls(library, rng, tally), {}
        given = {name: bytes.fromhex(sheet) for name, sheet in case["sheets"].items()}

        def lists(number: int) -> Shelf:
            found, rivers = model.rivers_on(opened[number])
            count = pool.table[number - 1].steps
            return pool.lend_river(*(rivers[model.own_flow(found, count + more)] for more in (0, 1)))

        def made(call: dict[str, Any]) -> list[Any]:
            name, number = call["call"], call["number"]
            if name == "forecast":
                room, asked = lend_room(rng, 20), Question(call["gauge"], call["limit"], call["horizon"])
                pool_forecast(pool, number, given[call["sheet"]], asked, room)
                return told_as(pool, room)
            if name == "open":
                opened[number] = given[call["sheet"]]
                pool.open(number, opened[number], call["U"], call.get("row", 0))
                return ["segments", pool.table[number - 1].segments]
            if name == "report":
                pool.report(number, call["segment"], lists(number))
                return ["figures", *(pool.shelf.content[each][0] for each in ("c", "z", "kdw"))]
            if name == "step":
                pool.step(number, call["U"], call["M"], lists(number))
            else:
                pool.close(number)
            return ["done"] if answer(pool) == 0 else ["refused", answer(pool), None]

        for call in case["calls"]:
            found = made(call)
            if found != call["answer"]:
                raise Difference(f"{call}: {found}")
        for number, river in case["rivers"].items():
            slot, state = pool.table[int(number) - 1], pool.pool.rivers[int(number)]
            highest = pool.highest(int(number), {})[:block_count(slot.segments)]
            held = (state.C, state.Z, state.W, slot.upstream, slot.steps, highest)
            if held != tuple(river[name] for name in ("C", "Z", "W", "U", "count", "highest")):
                raise Difference(f"river {number} is {held}, not {river}")
    return trial


def vectors() -> Iterator[Trial]:
    found = json.loads(VECTORS.read_text())
    if len(found) != 146:
        raise Difference(f"{len(found)} vectors, not 146")
    return ((vector if case["kind"] == "forecast" else pool_vector)(case) for case in found)


# The order of tests: each fault in every form, alone and beside others


N, M, COUNT = 9, 6, 2               # of the plain rivers, and the count of steps of the live ones below
ORDER = (*sheets.ORDER, 18, 13, 14, 20)


class Fault(NamedTuple):
    """A figure put into the live river where 14 finds it."""

    name: str
    at: int
    figure: int


class Asked(NamedTuple):
    """What a forecast is handed, and the tests that it breaks."""

    faults: set[int]
    n: int
    told: Told
    changes: tuple[Fault, ...]
    question: Question


def short_forms() -> list[tuple[int, Told]]:
    """13 in every form, with lists that are long enough for two segments more; nothing is short in the first."""
    found: list[tuple[int, Told]] = [(N, {})]
    found += [(N, {name: entries(name, N) - 1}) for name in (*LIVE, *ROOM)]
    return found + [(n, {}) for n in (0, N - 1, N + 1, MOST_SEGMENTS + 1, HIGHEST_FIELD)]


def figure_forms() -> list[tuple[Fault, ...]]:
    """14 of C, Z and W in the first, the last and some segment, of the lowest of two, of U and of the count."""
    over = HIGHEST + 1
    alone = [Fault(name, at, over) for name in FIGURES for at in (0, N - 1)]
    alone += [Fault("Z", 4, HIGHEST_FIELD), Fault("upstream", 0, over), Fault("done", 0, MOST_STEPS + 1)]
    return [(), *((fault,) for fault in alone),
            (Fault("C", 7, over), Fault("W", 3, over)), (Fault("Z", 2, over), Fault("C", 5, over)),
            (Fault("upstream", 0, HIGHEST_FIELD), Fault("Z", 8, over)),
            (Fault("done", 0, HIGHEST_FIELD), Fault("W", 1, over))]


def question_forms() -> list[tuple[bool, int, int]]:
    """20 in every form: whether it breaks it, gauge and horizon; gauges 1, 5 and 9 are on the sheet."""
    left = M - COUNT
    found = [(False, gauge, horizon) for gauge, horizon in ((1, 0), (5, 1), (N, left))]
    found += [(True, gauge, horizon) for gauge in (0, 2, N - 1, N + 1, MOST_SEGMENTS + 1, HIGHEST_FIELD)
              for horizon in (0, left + 1)]
    return found + [(True, 5, horizon) for horizon in (left + 1, 2 ** 31, HIGHEST_FIELD, 2 ** 32 - COUNT)]


def question(rng: random.Random, gauge: int, horizon: int) -> Question:
    return Question(gauge, rng.choice((0, 7_000, HIGHEST, HIGHEST_FIELD)), horizon)


def combined(rng: random.Random, forms: Iterator[tuple]) -> Iterator[Asked]:
    for (n, told), changes, (bad, gauge, horizon) in forms:
        faults = ({13} if told or n != N else set()) | ({14} if changes else set()) | ({20} if bad else set())
        yield Asked(faults, n, told, changes, question(rng, gauge, horizon))


def every_form(rng: random.Random) -> Iterator[Asked]:
    return combined(rng, product(short_forms(), figure_forms(), question_forms()))


def some_forms(rng: random.Random, count: int) -> Iterator[Asked]:
    return combined(rng, ((rng.choice(short_forms()), rng.choice(figure_forms()), rng.choice(question_forms()))
                          for _ in range(count)))


def first_of(faults: set[int]) -> int:
    return next((number for number in ORDER if number in faults), 0)


def sheet_faults(draft: sheets.Draft) -> list[tuple[set[int], bytes]]:
    """The good sheet, and one with each fault that a sheet can have."""
    return [(set(), sheets.write(draft)),
            *(({broken}, sheets.with_faults(draft, [broken], {}, {})) for broken in sheets.tests_of(draft))]


def order_alone(draft: sheets.Draft, faulty: set[int], sheet: bytes) -> Trial:
    """Every form on a good sheet, some on one at fault, whose answer is the sheet's."""
    def trial(library: Library, rng: random.Random, tally: Tally) -> None:
        good = figures(rng, N)
        good.count = COUNT
        room = lend_room(rng, N + 2)
        for asked in some_forms(rng, 30) if faulty else every_form(rng):
            live = live_of(library, rng, tally, sheet, good)
            for change in asked.changes:
                content = list(live.shelf.content[change.name])
                content[change.at] = change.figure
                live.shelf.put(change.name, content)
            dirty(rng, room)
            forecast(live, asked.n, asked.question, room, asked.told)
            must(live, first_of(faulty | asked.faults), f"{sheets.describe(draft)}: {asked}")
    return trial


OPEN = 3                            # the number of the river that is asked for, and its first segment
FIRST = 20


def tables() -> list[tuple[set[int], int, Table]]:
    """The tests that it breaks, the number named and the table; 13 where the river has not the sheet's count."""
    closed = Slot(0, 7, HIGHEST_FIELD, HIGHEST_FIELD, 9)
    good = [Slot(1, 0, 5, 1, 2), Slot(1, 100, 900, HIGHEST_FIELD, 3), Slot(1, FIRST, N, 5, COUNT),
            Slot(1, FIRST + N, 60, 4, HIGHEST_FIELD), closed, Slot(1, 1_000, 24, 0, 0), closed, closed]
    return [(set(), OPEN, good), (set(), OPEN, replaced(good, OPEN, opened=HIGHEST_FIELD)),
            *(({13}, OPEN, replaced(good, OPEN, segments=segments)) for segments in (0, N - 1)),
            *(({18}, number, good) for number in (*OUTSIDE, 5, 8)), ({18}, OPEN, replaced(good, OPEN, opened=0)),
            ({18}, OPEN, replaced(good, 4, first=FIRST + N - 1)), ({18}, OPEN, replaced(good, 6, first=1_001)),
            ({18}, OPEN, replaced(good, 8, opened=1, first=HIGHEST_FIELD, segments=1))]


def shared_forms() -> list[Told]:
    return [{}, *({name: length} for name in FIGURES for length in (MOST_SEGMENTS - 1, FIRST + N))]


def pool_figures(rng: random.Random) -> dict[str, list[int]]:
    """Shared lists in which the river of the tables above passes 14 and all others' water does not."""
    shared = {name: [HIGHEST_FIELD] * (MOST_SEGMENTS + rng.randrange(3)) for name in FIGURES}
    for content in shared.values():
        content[FIRST:FIRST + N] = [sheets.concentration(rng) for _ in range(N)]
    return shared


def put_fault(pool: PoolCalls, change: Fault) -> None:
    if change.name in FIGURES:
        content = list(pool.shelf.content[change.name])
        content[FIRST + change.at] = change.figure
        pool.put_pool(pool.table, {change.name: content})
    else:
        name = {"upstream": "upstream", "done": "steps"}[change.name]
        pool.put_pool(replaced(pool.table, OPEN, **{name: change.figure}))


def forms_on_pool(rng: random.Random, faulty: bool) -> Iterator[tuple[tuple[set[int], int, Table], Told, Asked]]:
    """Of a good sheet every table with every length of the shared lists; then, on a good table, no fault, each fault alone
    and some together."""
    if faulty:
        yield from ((rng.choice(tables()), rng.choice(shared_forms()), asked) for asked in some_forms(rng, 30))
    else:
        for table, shared in product(tables(), shared_forms()):
            yield from ((table, shared, asked) for asked in some_forms(rng, 12))
        own = [asked for asked in every_form(rng) if asked.n == N]
        few = [asked for asked in own if len(asked.faults) < 2]
        yield from ((tables()[0], {}, asked) for asked in (*few, *rng.sample(own, 200)))


def order_on_pool(draft: sheets.Draft, faulty: set[int], sheet: bytes) -> Trial:
    """The same with 18 behind the sheet's tests, and 13 of the shared lists behind 18; n is the slot's count."""
    def trial(library: Library, rng: random.Random, tally: Tally) -> None:
        room = lend_room(rng, N + 2)
        for (broken, number, table), shared, asked in forms_on_pool(rng, bool(faulty)):
            pool = PoolCalls(library, rng, tally, table, pool_figures(rng))
            for change in asked.changes:
                put_fault(pool, change)
            told = {name: length for name, length in asked.told.items() if name not in FIGURES} | shared
            faults = asked.faults - {13} | broken | ({13} if told else set())
            dirty(rng, room)
            pool_forecast(pool, number, sheet, asked.question, room, told)
            must(pool, first_of(faulty | faults), f"{sheets.describe(draft)}, number {number}, {shared}: {asked}")
    return trial


# Lists of every length, horizons and counts


def lengths_of(segments: int) -> Trial:
    """Each list one entry short, none at all, just long enough and longer; counts that are not the sheet's."""
    def trial(library: Library, rng: random.Random, tally: Tally) -> None:
        draft = sheets.good_river(rng, segments, 3, rng.choice(sheets.DRAWERS))
        state = figures(rng, segments)
        live = live_of(library, rng, tally, sheets.write(draft), state)
        room = lend_room(rng, segments + 2)
        asked = Question(rng.choice(draft.gauges), HIGHEST_FIELD, 1)
        for name in (*LIVE, *ROOM):
            for length in {entries(name, segments) - 1, 0}:
                forecast(live, segments, asked, room, {name: length})
                must(live, 13, f"{segments} segments, {name} of {length}")
        for n in {0, segments - 1, segments + 1, MOST_SEGMENTS + 1, 2 ** 31, HIGHEST_FIELD}:
            forecast(live, n, asked, room)
            must(live, 13, f"{n} segments, and the sheet has {segments}")
        just = {name: entries(name, segments) for name in (*LIVE, *ROOM)}
        for told in (just, {}, {**just, "sides": SIDES * (segments + 1) - 1}, {**just, "sides": SIDES * segments + 1}):
            dirty(rng, room)
            forecast(live, segments, asked, room, told)
            must(live, 0, f"{segments} segments, told {told}")
            must_find(room, None, "the highest limit")
    return trial


def horizons(draft: sheets.Draft, counts: range) -> Trial:
    """From these counts and those around M, the horizons around M - count, and such as 32 bits do not hold with it."""
    def trial(library: Library, rng: random.Random, tally: Tally) -> None:
        sheet, steps, n = sheets.write(draft), draft.header.M, draft.segments
        room = lend_room(rng, n)
        tried = {*counts, steps - 1, steps, min(steps + 1, MOST_STEPS), MOST_STEPS - 1, MOST_STEPS}
        for count in sorted(tried):
            state = figures(rng, n)
            state.count = count
            live = live_of(library, rng, tally, sheet, state)
            left = steps - count
            near = {0, 1, left - 1, left, left + 1, 2 ** 32 - count - 1, 2 ** 32 - count, 2 ** 32 - count + left,
                    2 ** 32 - count + left + 1, 2 ** 31, HIGHEST_FIELD}
            for horizon in sorted(each for each in near if 0 <= each <= HIGHEST_FIELD):
                dirty(rng, room)
                forecast(live, n, Question(draft.gauges[0], HIGHEST_FIELD, horizon), room)
                must(live, 0 if count + horizon <= steps else 20, f"count {count}, horizon {horizon} of {steps}")
    return trial


def longest_horizon(library: Library, rng: random.Random, tally: Tally) -> None:
    """100,000 steps ahead, and not one more; and the last step of all."""
    draft = sheets.brook(dt=1, Q=500, U=HIGHEST, M=MOST_STEPS)
    live = live_of(library, rng, tally, sheets.write(draft), State([0], [0], [0]))
    room = lend_room(rng, 1)
    for horizon, wanted in ((MOST_STEPS, 0), (MOST_STEPS + 1, 20)):
        forecast(live, 1, Question(1, HIGHEST, horizon), room)
        must(live, wanted, f"horizon {horizon}")
    must_find(room, None, "the highest figure")
    last = live_of(library, rng, tally, sheets.write(draft), State([0], [0], [0], HIGHEST, MOST_STEPS - 1))
    for horizon, wanted in ((0, None), (1, MOST_STEPS)):
        forecast(last, 1, Question(1, 0, horizon), room)
        must(last, 0, f"horizon {horizon}")
        must_find(room, wanted, f"horizon {horizon} from step {MOST_STEPS - 1}")


# Where the gauge is first above the limit


def questions_of(run: list[State], count: int, gauge: int) -> Iterator[tuple[Question, Optional[int]]]:
    """From a count on: limits at which each step that can be is the first above, with the horizons around it.

    A figure equal to the limit is not above it: each limit is the highest figure before the step, or the step's less 1.
    """
    shown = [state.C[gauge - 1] for state in run[count:]]
    left = len(shown) - 1
    for ahead, figure in enumerate(shown):
        before = max(shown[:ahead], default=-1)
        if figure > before:
            for limit in {max(before, 0), figure - 1} - {-1}:
                first = next((step for step, each in enumerate(shown) if each > limit), None)
                for horizon in {0, ahead - 1, ahead, ahead + 1, left}:
                    if 0 <= horizon <= left:
                        found = first is not None and first <= horizon
                        yield Question(gauge, limit, horizon), count + first if found else None
    for limit in (max(shown), HIGHEST, HIGHEST_FIELD):
        yield Question(gauge, limit, left), None
    above_0 = next((count + step for step, each in enumerate(shown) if each > 0), None)
    yield Question(gauge, 0, left), above_0


def where_found(case: sheets.Case) -> Trial:
    """The sheet's own river, asked at its steps for its gauges; the copies hold the state that the steps leave."""
    def trial(library: Library, rng: random.Random, tally: Tally) -> None:
        run = list(states(case.sheet))
        found, n = model.read_sheet(case.sheet), len(run[0].C)
        counts = sorted({0, len(run) - 1, *rng.sample(range(len(run)), min(5, len(run)))})
        for count, gauge in product(counts, rng.sample(found.gauges, min(2, len(found.gauges)))):
            live = live_of(library, rng, tally, case.sheet, run[count])
            room = lend_room(rng, n)
            asked = list(questions_of(run, count, gauge))
            for question, wanted in asked if len(asked) < 40 else rng.sample(asked, 40):
                dirty(rng, room)
                forecast(live, n, question, room)
                must(live, 0, f"{case.name}, from step {count}: {question}")
                must_find(room, wanted, f"{case.name}, from step {count}: {question}")
                stops = count + question.horizon if wanted is None else wanted
                hold_copy(room, run[stops], f"{case.name}, from step {count}: {question}")
                true = highest_figures(run[stops].C)
                if room.content["highest1"][:len(true)] != true:
                    raise Difference(f"the highest figures at step {stops} are not true")
    return trial


def highest_of(segments: int) -> Trial:
    """Live highest figures that are not true: copied as they are where no step is made, true after one."""
    def trial(library: Library, rng: random.Random, tally: Tally) -> None:
        draft = sheets.good_river(rng, segments, 3, rng.choice(sheets.DRAWERS))
        state, blocks = figures(rng, segments), block_count(segments)
        room = lend_room(rng, segments)
        for highest in ([0] * blocks, [HIGHEST_FIELD] * blocks, [draw_word(rng) for _ in range(blocks)]):
            live = live_of(library, rng, tally, sheets.write(draft), state, highest)
            gauge = rng.choice(draft.gauges)
            asked = [Question(gauge, HIGHEST_FIELD, 0), Question(gauge, HIGHEST_FIELD, 2)]
            if state.C[gauge - 1]:
                asked.append(Question(gauge, state.C[gauge - 1] - 1, 3))        # found at once
            for question in asked:
                dirty(rng, room)
                forecast(live, segments, question, room)
                made = room.content["done1"][0]
                wanted = highest_figures(copy_at(room, segments).C) if made else highest
                if room.content["highest1"][:blocks] != wanted:
                    raise Difference(f"{segments} segments, {made} steps: highest figures {room.content['highest1']}")
    return trial


def at_the_cut(library: Library, rng: random.Random, tally: Tally) -> None:
    """C' above 1,000,000,000 inside the upward pass: the figure that is looked at is the cut one."""
    draft = sheets.above_the_highest()
    run = list(states(sheets.write(draft)))
    live = live_of(library, rng, tally, sheets.write(draft), run[0])
    room = lend_room(rng, draft.segments)
    for gauge, limit in product(draft.gauges, (HIGHEST - 1, HIGHEST)):
        forecast(live, draft.segments, Question(gauge, limit, draft.header.M), room)
        wanted = next((state.count for state in run if state.C[gauge - 1] > limit), None)
        must_find(room, wanted, f"gauge {gauge}, limit {limit}")


# What as many step calls say


def own_question(rng: random.Random, found: model.Sheet, ahead: list[State]) -> Question:
    """A gauge of the sheet; a limit near a figure that comes, or the highest of those up to some step; a horizon that M
    allows: any, or one that just reaches the first step above, or just does not."""
    gauge, left = rng.choice(found.gauges), len(ahead) - 1
    shown = [state.C[gauge - 1] for state in ahead]
    limit = rng.choice((some_limit(rng, shown), max(shown[:rng.randint(1, len(shown))])))
    first = next((step for step, figure in enumerate(shown) if figure > limit), left)
    return Question(gauge, limit, rng.choice((0, left, first, max(first - 1, 0), rng.randint(0, left))))


def states_ahead(found: model.Sheet, rivers: list[list[model.Segment]], state: State) -> list[State]:
    """The sheet's own river from any state on, up to M."""
    ahead = [state]
    while ahead[-1].count < found.header.M:
        ahead.append(model.own_step(found, rivers, ahead[-1])[0])
    return ahead


def live_state(content: dict[str, list[int]], n: int) -> State:
    return State(*(content[name][:n] for name in FIGURES), content["upstream"][0], content["done"][0])


def hold_step(run: Run, room: Shelf, begun_at: int) -> None:
    """The copies, highest figures and working lists are those that the step calls have left."""
    content, n = run.shelf.content, run.n
    hold_copy(room, live_state(content, n), "as many step calls")
    if run.moves > begun_at:
        for name, beside in (("highest1", "highest"), *zip(WORKING, WORKING)):
            count = entries(name, n)
            if room.content[name][:count] != content[beside][:count]:
                raise Difference(f"{name} is not what the last of {run.moves - begun_at} step calls leaves")


def as_step_calls(case: sheets.Case) -> Trial:
    """A river that was fed any U; forecasts of it; then its steps with the sheet's pairs, U' and M, and reports."""
    def trial(library: Library, rng: random.Random, tally: Tally) -> None:
        run = Run(library, rng, tally, case.sheet, case.exact)
        starts, concentrations = (list(each) for each in zip(*run.found.rows))
        begun(run, sheets.concentration(rng))
        for _ in range(rng.randint(0, rng.randint(0, run.steps))):
            stepped(run, sheets.concentration(rng))
        count = run.moves
        ahead = states_ahead(run.found, run.course.rivers, live_state(run.shelf.content, run.n))
        said = [(own_question(rng, run.found, ahead), lend_room(rng, run.n)) for _ in range(5)]
        for asked, room in said:
            if not forecast(run, run.n, asked, room):
                raise Difference(f"{case.name}: {asked} is refused {answer(run)}")
        shown: dict[int, list[int]] = {asked.gauge: [] for asked, _ in said}
        last = count + max(asked.horizon for asked, _ in said)
        while True:
            for gauge, figures_at in shown.items():
                run.lend_columns_of(run.any_flow())
                if not run.report(run.n, gauge, {}):
                    raise Difference("a report of the gauge is refused")
                figures_at.append(run.shelf.content["c"][0])
            for _, room in said:
                if run.moves == room.content["done1"][0]:
                    hold_step(run, room, count)
            if run.moves == last:
                break
            u = run.upstream(starts, concentrations, run.steps, run.moves + 1)
            run.lend_pair(run.flow(run.moves), run.flow(run.moves + 1))
            if not run.step(run.n, u, run.steps, {}):
                raise Difference(f"step {run.moves + 1} is refused")
            run.move(u)
        for asked, room in said:
            run_of = shown[asked.gauge][:asked.horizon + 1]
            wanted = next((count + step for step, figure in enumerate(run_of) if figure > asked.limit), None)
            must_find(room, wanted, f"{case.name}: {asked} from step {count}")
    return trial


# On a pool


def same_room(rng: random.Random, n: int) -> tuple[Shelf, Shelf]:
    """Two rooms that hold the same."""
    seed = rng.random()
    return lend_room(random.Random(seed), n), lend_room(random.Random(seed), n)


def hold_same(here: Shelf, there: Shelf, what: str) -> None:
    for name, content in here.content.items():
        if content != there.content[name]:
            raise Difference(f"{what}: {name} is {content[:9]}, not {there.content[name][:9]}")


def stock_of(rng: random.Random, lengths: list[int], steps: int, exact: str) -> list[sheets.Case]:
    found = []
    for segments in lengths:
        draft = sheets.good_river(rng, segments, rng.randint(steps // 2, steps), rng.choice(sheets.DRAWERS))
        found.append(sheets.Case(sheets.describe(draft), sheets.write(draft), exact=exact))
    return found


def ask_on_pool(run: PoolRun, number: int) -> Optional[tuple[Question, Shelf]]:
    """A forecast of an open river and the same of its twin alone: one answer, one content of the rooms."""
    rng, twin = run.rng, run.twins[number]
    count = run.table[number - 1].steps
    if count > twin.steps:
        return None
    ahead = states_ahead(twin.found, twin.course.rivers, live_state(twin.shelf.content, twin.n))
    asked = own_question(rng, twin.found, ahead)
    here, alone = same_room(rng, twin.n)
    if not (pool_forecast(run, number, twin.sheet, asked, here) and forecast(twin, twin.n, asked, alone)):
        raise Difference(f"{asked} of river {number} is refused {answer(run)}")
    hold_same(here, alone, f"river {number} on the pool and alone")
    return asked, here


def step_of(run: PoolRun, number: int, u: int) -> None:
    """A step of a river on the pool with its own pair and M, and of its twin."""
    twin = run.twins[number]
    twin.lend_pair(*(twin.course.flow(twin.moves + more) for more in (0, 1)))
    if not run.step(number, u, twin.steps, twin.shelf):
        raise Difference(f"step {twin.moves + 1} of river {number} is refused")
    run.put_alone("step", twin, u, twin.steps, {})


def others_move(run: PoolRun, number: int, stock: list[sheets.Case]) -> None:
    """The other rivers are stepped, one of them is closed and another one opened, which moves the stretches."""
    rng, others = run.rng, [each for each in run.twins if each != number]
    for each in others:
        if run.twins[each].moves < run.twins[each].steps:
            step_of(run, each, sheets.concentration(rng))
    if others:
        closed = rng.choice(others)
        if not run.close(closed):
            raise Difference(f"river {closed} is not closed")
        del run.twins[closed]
    free = [each for each in NUMBERS if each not in run.twins]
    case, u = rng.choice(stock), sheets.concentration(rng)
    if run.open(free[0], case.sheet, u):
        run.begin(free[0], case, u)
    run.hold_apart()


def pool_asked(stock: list[sheets.Case], turns: int) -> Trial:
    """Rivers that share lists, forecast in turn while they run; others' calls between change no answer.

    Then the named river's own steps and reports on the pool say what its forecast said.
    """
    def trial(library: Library, rng: random.Random, tally: Tally) -> None:
        run = PoolRun(library, rng, tally, stock)
        for number, case in zip(rng.sample(NUMBERS, min(len(stock), 4)), stock):
            u = sheets.concentration(rng)
            if run.open(number, case.sheet, u):
                run.begin(number, case, u)
        for _ in range(turns):
            number = rng.choice(list(run.twins))
            twin = run.twins[number]
            if twin.moves < twin.steps and rng.random() < 0.5:
                step_of(run, number, sheets.concentration(rng))
            said = ask_on_pool(run, number)
            others_move(run, number, stock)
            if said is None:
                continue
            asked, before = said
            after = lend_room(rng, twin.n)
            if not pool_forecast(run, number, twin.sheet, asked, after):
                raise Difference(f"{asked} of river {number} is refused {answer(run)} after others' calls")
            for name in (*COPIES, "above", "upstream1", "done1"):
                count = entries(name, twin.n) if name in COPIES else 1
                if before.content[name][:count] != after.content[name][:count]:
                    raise Difference(f"river {number}: others' calls change {name}")
            run.hold_apart()
            if rng.random() < 0.4:
                steps_on_pool(run, number, asked, after)
    return trial


def steps_on_pool(run: PoolRun, number: int, asked: Question, room: Shelf) -> None:
    """The river's own steps up to the horizon's end, with the sheet's pairs, U' and M, and reports of the gauge."""
    twin = run.twins[number]
    count, shown = twin.moves, []
    while True:
        if not run.report(number, asked.gauge, twin.shelf):
            raise Difference("a report of the gauge is refused")
        shown.append(run.shelf.content["c"][0])
        if twin.moves == room.content["done1"][0]:
            slot = run.table[number - 1]
            part = slice(slot.first, slot.first + slot.segments)
            hold_copy(room, State(*(run.shelf.content[name][part] for name in FIGURES), slot.upstream, slot.steps),
                      f"as many step calls on river {number}")
        if twin.moves == count + asked.horizon:
            break
        step_of(run, number, model.own_upstream(twin.found, twin.moves + 1))
    wanted = next((count + step for step, figure in enumerate(shown) if figure > asked.limit), None)
    must_find(room, wanted, f"{asked} of river {number} from step {count}")


# Forecasts of every kind, drawn at random


class Stock(NamedTuple):
    """A sheet with the states of its own river."""

    sheet: bytes
    found: model.Sheet
    run: list[State]

    @classmethod
    def of(cls, sheet: bytes) -> "Stock":
        return cls(sheet, model.read_sheet(sheet), list(states(sheet)))

    @property
    def n(self) -> int:
        return len(self.run[0].C)


def some_state(rng: random.Random, stock: Stock) -> State:
    """One of the river's own, or any figures; now and then one too high."""
    state = copied(rng.choice(stock.run))
    if rng.random() < 0.4:
        count = state.count
        state = figures(rng, stock.n)
        state.count = rng.choice((count, count, 0, len(stock.run), MOST_STEPS))
    if rng.random() < 0.3:
        state.U = sheets.concentration(rng)
    if rng.random() < 0.08:
        part = rng.choice((state.C, state.Z, state.W))
        part[rng.randrange(stock.n)] = rng.choice((HIGHEST, HIGHEST + 1, HIGHEST_FIELD))
    if rng.random() < 0.05:
        state.U = rng.choice((HIGHEST + 1, HIGHEST_FIELD))
    if rng.random() < 0.05:
        state.count = rng.choice((MOST_STEPS, MOST_STEPS + 1, HIGHEST_FIELD, len(stock.run)))
    return state


def some_question(rng: random.Random, stock: Stock, state: State) -> Question:
    gauge = rng.choice(stock.found.gauges)
    left = max(0, stock.found.header.M - state.count)
    shown = [gone.C[gauge - 1] for gone in stock.run] + [state.C[gauge - 1]]
    horizon = rng.choice((0, left, rng.randint(0, left), rng.randint(0, left)))
    if rng.random() < 0.08:
        horizon = rng.choice((left + 1, HIGHEST_FIELD, 2 ** 32 - max(1, state.count), rng.randint(0, HIGHEST_FIELD)))
    if rng.random() < 0.06:
        gauge = rng.choice((0, rng.randint(1, stock.n), stock.n, stock.n + 1, HIGHEST_FIELD))
    return Question(gauge, some_limit(rng, shown), min(horizon, HIGHEST_FIELD))


def some_sheet(rng: random.Random, sheet: bytes) -> bytes:
    """Nearly always the sheet itself; else with one change, which may be refused or make another river."""
    if rng.random() < 0.94:
        return sheet
    kind = rng.choice(("a bit", "a byte", "a field", "a stretch lost", "a cut"))
    return sheets.changed(rng, kind, rng.randrange(len(sheet)), sheet)


def some_told(rng: random.Random, n: int, names: tuple[str, ...]) -> Told:
    if rng.random() < 0.9:
        return {}
    return {name: rng.choice((0, entries(name, n) - 1, rng.randrange(entries(name, n))))
            for name in rng.sample(names, rng.choice((1, 1, 2)))}


def some_highest(rng: random.Random, state: State) -> list[int]:
    true = highest_figures(state.C)
    return true if rng.random() < 0.7 else [draw_word(rng) for _ in true]


def drawn(stock: Stock, count: int) -> Trial:
    """Forecasts of a river alone: each form of a fault now and then, the lists of any content and length."""
    def trial(library: Library, rng: random.Random, tally: Tally) -> None:
        for _ in range(count):
            state, sheet = some_state(rng, stock), some_sheet(rng, stock.sheet)
            live = live_of(library, rng, tally, sheet, state, some_highest(rng, state), rng.randrange(3))
            n = stock.n
            if rng.random() < 0.05:
                n = rng.choice((0, n - 1, n + 1, MOST_SEGMENTS + 1, HIGHEST_FIELD))
            told = some_told(rng, stock.n, (*LIVE, *ROOM))
            forecast(live, n, some_question(rng, stock, state), lend_room(rng, stock.n), told)
    return trial


def some_table(rng: random.Random, number: int, n: int, state: State) -> Table:
    """The river of this number somewhere among others; now and then a table that no calls leave."""
    first = rng.choice((0, MOST_SEGMENTS - n, rng.randint(0, MOST_SEGMENTS - n)))
    slots = [Slot(0, *(draw_word(rng) for _ in Slot._fields[1:])) for _ in NUMBERS]
    slots[number - 1] = Slot(rng.choice((1, 1, HIGHEST_FIELD)), first, n, state.U, state.count)
    for other, stretch in ((number % MOST_RIVERS + 1, (0, rng.randint(0, first))),
                           ((number + 3) % MOST_RIVERS + 1, (first + n, rng.randint(0, MOST_SEGMENTS - first - n)))):
        if rng.random() < 0.7 and other != number:
            slots[other - 1] = Slot(1, *stretch, draw_word(rng), draw_word(rng))
    if rng.random() < 0.06:
        at = rng.randrange(MOST_RIVERS)
        name = rng.choice(("opened", "first", "segments"))
        slots[at] = slots[at]._replace(**{name: rng.choice((0, 1, MOST_SEGMENTS, HIGHEST_FIELD))})
    return slots


def drawn_on_pool(stock: Stock, count: int) -> Trial:
    """The same on a pool; all that is not the river's own water has any content."""
    def trial(library: Library, rng: random.Random, tally: Tally) -> None:
        for _ in range(count):
            state, number = some_state(rng, stock), rng.choice(NUMBERS)
            table = some_table(rng, number, stock.n, state)
            first = min(table[number - 1].first, MOST_SEGMENTS)
            shared = {name: draw_words(rng, MOST_SEGMENTS + rng.randrange(3)) for name in FIGURES}
            for content, own in zip(shared.values(), (state.C, state.Z, state.W)):
                content[first:first + stock.n] = own
            pool = PoolCalls(library, rng, tally, table, shared)
            name = pool.highest_name(number)
            pool.shelf.put(name, (some_highest(rng, state) + pool.shelf.content[name])[:len(pool.shelf.content[name])])
            told = some_told(rng, stock.n, ("highest", *ROOM))
            if rng.random() < 0.04:
                told[rng.choice(FIGURES)] = rng.choice((0, first + stock.n - 1, MOST_SEGMENTS - 1))
            named = number if rng.random() < 0.95 else rng.choice((*OUTSIDE, rng.choice(NUMBERS)))
            pool_forecast(pool, named, some_sheet(rng, stock.sheet), some_question(rng, stock, state),
                          lend_room(rng, stock.n), told)
    return trial


def some_stock(rng: random.Random, count: int) -> Iterator[Stock]:
    """Small rivers of all kinds, and some at the highest figures."""
    for draw in sheets.DRAWERS:
        for case in chain(sheets.small_rivers(rng, count, draw), sheets.highest_rivers(rng, 2, draw)):
            yield Stock.of(case.sheet)
        yield Stock.of(sheets.write(sheets.good_river(rng, rng.choice((17, 33, 40)), 6, draw)))
    yield from (Stock.of(sheets.write(draft)) for draft in PLAIN)


def largest(draft: sheets.Draft) -> Trial:
    """A large river or sheet: from any state, a few steps ahead, over flow rows that begin to hold."""
    def trial(library: Library, rng: random.Random, tally: Tally) -> None:
        sheet, n = sheets.write(draft), draft.segments
        rows = [row.start for row in draft.flow_rows or []]
        for count in sorted({0, *(max(0, start - 2) for start in rng.sample(rows, min(2, len(rows))))}):
            state = figures(rng, n)
            state.count = count
            live = live_of(library, rng, tally, sheet, state)
            for horizon in (0, 3):
                gauge = rng.choice(draft.gauges)
                limit = rng.choice((HIGHEST_FIELD, state.C[gauge - 1]))
                forecast(live, n, Question(gauge, limit, min(horizon, draft.header.M - count)), lend_room(rng, n))
                must(live, 0, f"{sheets.describe(draft)} from step {count}")
    return trial


def large_drafts(rng: random.Random) -> Iterator[sheets.Draft]:
    yield from (sheets.good_river(rng, MOST_SEGMENTS, 8, draw) for draw in sheets.DRAWERS)
    yield sheets.fullest(rng)


def own_cases(rng: random.Random) -> Iterator[sheets.Case]:
    """Sheets with flow rows and bands at every limit, and drawn ones of each kind."""
    yield from (case for case in chain(sheets.flow_rivers(), sheets.band_rivers())
                if model.read_sheet(case.sheet).header.M <= 15)
    yield from (sheets.Case(sheets.describe(draft), sheets.write(draft)) for draft in PLAIN)
    for draw in sheets.DRAWERS:
        yield from sheets.small_rivers(rng, 8, draw)
        yield from sheets.rivers(rng, 6, 200, draw)


def step_cases(rng: random.Random) -> Iterator[sheets.Case]:
    for draw in sheets.DRAWERS:
        yield from sheets.small_rivers(rng, 25, draw)
        yield from sheets.rivers(rng, 10, 300, draw)
        yield from (case for case in sheets.tight_rivers(rng, 4, draw) if case.exact)


def pool_stocks(rng: random.Random) -> Iterator[Trial]:
    for _ in range(16):
        yield pool_asked(stock_of(rng, [rng.randint(1, 4) for _ in range(5)], 8, "fractions"), 10)
    for _ in range(8):
        yield pool_asked(stock_of(rng, [sheets.log_uniform(rng, 1, 100) for _ in range(5)], 12, ""), 8)


def order_of(make: Callable[[sheets.Draft, set[int], bytes], Trial]) -> Iterator[Trial]:
    return (make(draft, *each) for draft in PLAIN for each in sheet_faults(draft))


SHEET_REFUSALS = {*((number, None) for number in (1, 2, 3, 4, 5)), (6, "reach"), (7, None), (8, "row"), (9, "row"),
                  (10, "segment"), (11, "segment"), (12, "segment"), (16, "row"), (19, "reach")}
REFUSALS = {(13, None), (14, "segment"), (14, None), (20, None)}

GROUPS = (
    Group("the vectors of request 7", lambda rng: vectors(),
          {"forecast": SHEET_REFUSALS | REFUSALS | FOUND,
           "pool_forecast": {(5, None), (18, None), (13, None), (20, None), AT_ONCE, LATER}}),
    Group("the order of tests", lambda rng: order_of(order_alone),
          {"forecast": SHEET_REFUSALS | REFUSALS | {AT_ONCE, NEVER}}),
    Group("the order of tests on a pool", lambda rng: order_of(order_on_pool),
          {"pool_forecast": SHEET_REFUSALS | REFUSALS | {(18, None), NEVER, AT_ONCE}}),
    Group("lists of every length", lambda rng: map(lengths_of, LENGTHS), {"forecast": {(13, None), NEVER}}),
    Group("horizons and counts", lambda rng: chain(
        (horizons(draft, range(M)) for draft in PLAIN),
        (horizons(sheets.brook(dt=1, Q=0, M=MOST_STEPS), range(MOST_STEPS - 3, MOST_STEPS)), longest_horizon)),
          {"forecast": {(20, None), NEVER, AT_THE_END}}),
    Group("where the gauge is first above", lambda rng: map(where_found, own_cases(rng)), {"forecast": FOUND}),
    Group("highest figures that are not true", lambda rng: map(highest_of, LENGTHS), {"forecast": {NEVER, AT_ONCE}}),
    Group("figures at the cut", lambda rng: iter((at_the_cut,)), {"forecast": {NEVER, AT_ONCE}}),
    Group("as many step calls", lambda rng: map(as_step_calls, step_cases(rng)),
          {"forecast": FOUND, "step": {ACCEPTED}, "report": {ACCEPTED}}, True),
    Group("on a pool, beside the river alone and its steps", pool_stocks,
          {"pool_forecast": FOUND, "forecast": FOUND, "pool_step": {ACCEPTED}, "pool_report": {ACCEPTED}}, True),
    Group("forecasts of every kind", lambda rng: (drawn(stock, 100) for stock in some_stock(rng, 12)),
          {"forecast": REFUSALS | FOUND}),
    Group("forecasts of every kind on a pool", lambda rng: (drawn_on_pool(stock, 50) for stock in some_stock(rng, 8)),
          {"pool_forecast": REFUSALS | FOUND | {(18, None)}}),
    Group("the largest rivers and the longest sheet", lambda rng: map(largest, large_drafts(rng)),
          {"forecast": {NEVER}}),
)


def no_others(archive: str, folder: Path, total: Tally) -> None:
    """Examples and stack are test_library.py's."""


if __name__ == "__main__":
    sys.exit(groups.main("Tests forecasts over the library's boundary.", GROUPS, no_others))
