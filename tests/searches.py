"""Highest figures and searches of a river alone, put to the library and to the model.

Rivers of each length around sixteen segments: the highest figures after every start and step, searches of lists as
these left them and of lists that are not true, and lists that are too short.
"""
from __future__ import annotations

import random
from collections.abc import Iterator

import sheets
from calls import SEARCHED, Difference, Run, Tally, draw_word, draw_words, entries, hold_search
from groups import Trial
from library import FIGURES, OLD, Library
from model import BLOCK, COLUMNS, HIGHEST, HIGHEST_KD, MOST_SEGMENTS, MOST_STEPS, NONE_ABOVE, SET, Numbers, block_count
from sheets import HIGHEST_FIELD

# Lists of a river of one segment: where all figures are 10^9, a step's C' is one more before the cut.
CUT_NUMBERS = Numbers(e=0, g=0, l=0, a=8, b=80_000_000, k=0, ks=0, h=8, m=0, s=80_000_000)
ABOVE_THE_CUT = dict.fromkeys(COLUMNS, 0) | dict(zip((*SET, *OLD), CUT_NUMBERS * 2))

LENGTHS = (1, 15, 16, 17, 31, 32, 33, MOST_SEGMENTS - 1, MOST_SEGMENTS)
STEPS = 4


def limits(rng: random.Random, figures: list[int]) -> list[int]:
    """0, 10^9 and 2^32 - 1, and figures of the river, the highest and the lowest among them, with their neighbours."""
    near = {max(figures), min(figures), rng.choice(figures)}
    found = {0, HIGHEST, HIGHEST_FIELD} | {figure + more for figure in near for more in (-1, 0, 1)}
    return sorted(limit for limit in found if 0 <= limit <= HIGHEST_FIELD)


def untrue(rng: random.Random, true: list[int], limit: int) -> Iterator[list[int]]:
    """Highest figures that are not true: none above, all above, all at the limit, any, and true but for one block."""
    yield from ([figure] * len(true) for figure in (0, HIGHEST_FIELD, limit))
    yield [draw_word(rng) for _ in true]
    at = rng.randrange(len(true))
    for figure in {0, limit, min(limit + 1, HIGHEST_FIELD), HIGHEST_FIELD}:
        yield [*true[:at], figure, *true[at + 1:]]


def river_of(library: Library, rng: random.Random, tally: Tally, segments: int) -> Run:
    """A good river of so many segments, with flow rows, bands or without, loaded; both lists go on behind it."""
    draw = rng.choice(sheets.DRAWERS)
    run = Run(library, rng, tally, sheets.write(sheets.good_river(rng, segments, STEPS, draw)), "")
    for name in SEARCHED:
        run.shelf.add(name, draw_words(rng, entries(name, segments) + 2))
    return run


def begun(run: Run, u: int) -> None:
    if not run.start(run.n, u, {}):
        raise Difference("a start of a good river is refused")
    run.begin(u)


def stepped(run: Run, u: int) -> None:
    run.lend_next_pair()
    if not run.step(run.n, u, MOST_STEPS, {}):
        raise Difference("a step of a good river is refused")
    run.move(u)


def must(run: Run, wanted: int, what: str) -> None:
    """The answer is the one that the making of the case decides; library and model were compared before."""
    if run.shelf.content["number"] != [wanted]:
        raise Difference(f"{what}, {run.n} segments: answer {run.shelf.content['number']}, not {wanted}")


def put_first(run: Run, name: str, figures: list[int], behind: int = HIGHEST_FIELD) -> None:
    """The first entries of a list; one figure in all that lies behind them."""
    run.shelf.put(name, [*figures, *[behind] * (len(run.shelf.content[name]) - len(figures))])


def search_true(run: Run) -> None:
    """Searches of the lists as they were left."""
    figures = run.shelf.content["C"][:run.n]
    for limit in limits(run.rng, figures):
        hold_search(run.search(run.n, limit, {}), figures, limit)


def search_untrue(run: Run) -> None:
    """Searches with other highest figures, while what lies behind the river is above every limit."""
    shelf, blocks = run.shelf, block_count(run.n)
    before = {name: list(shelf.content[name]) for name in SEARCHED}
    put_first(run, "C", before["C"][:run.n])
    for limit in limits(run.rng, before["C"][:run.n]):
        for highest in untrue(run.rng, before["highest"][:blocks], limit):
            put_first(run, "highest", highest)
            found = run.search(run.n, limit, {})
            if all(figure <= limit for figure in highest) and found != NONE_ABOVE:
                raise Difference(f"limit {limit}: segment {found} is named, and no block is to be entered")
    for name, content in before.items():
        shelf.put(name, content)


def every_block(segments: int) -> Trial:
    """The highest figures after a start and after every step, and of a step from any state; searches each time."""
    def trial(library: Library, rng: random.Random, tally: Tally) -> None:
        run = river_of(library, rng, tally, segments)
        begun(run, sheets.concentration(rng))
        search_true(run)
        for _ in range(STEPS):
            stepped(run, sheets.concentration(rng))
            search_true(run)
        search_untrue(run)
        for name in FIGURES:        # figures that do not go by the reaches
            put_first(run, name, [sheets.concentration(rng) for _ in range(run.n)])
        put_first(run, "highest", [])
        stepped(run, sheets.concentration(rng))
        search_true(run)
        search_untrue(run)
    return trial


def any_lists(segments: int) -> Trial:
    """Searches of lists that no call has left: any figures, up to 2^32 - 1, and fewer segments than they have."""
    def trial(library: Library, rng: random.Random, tally: Tally) -> None:
        run = river_of(library, rng, tally, segments)
        for at in range(10):
            words = [draw_word(rng) for _ in range(rng.randint(1, 4))]
            for name in SEARCHED:
                length = len(run.shelf.content[name])
                alike = BLOCK if at % 2 and name == "C" else 1      # a figure for each block, or for each segment
                run.shelf.put(name, [word for word in rng.choices(words, k=length) for _ in range(alike)][:length])
            for n in {segments, max(1, segments - 1), rng.randint(1, segments)}:
                for limit in limits(rng, words):
                    run.search(n, limit, {})
    return trial


def short_lists(segments: int) -> Trial:
    """13 of the highest figures, one entry short and none at all, in every call that is lent them; its neighbours."""
    def trial(library: Library, rng: random.Random, tally: Tally) -> None:
        run = river_of(library, rng, tally, segments)
        begun(run, 5)
        run.lend_next_pair()
        n, blocks = run.n, block_count(segments)
        for length in {blocks - 1, 0}:
            short = {"highest": length}
            for u in (5, HIGHEST + 1):
                run.start(n, u, short)
                must(run, 13, "a start")
                for steps in (MOST_STEPS, MOST_STEPS + 1, 0):
                    run.step(n, u, steps, short)
                    must(run, 13, "a step")
            for limit in (0, HIGHEST_FIELD):
                run.search(n, limit, short)
                must(run, 13, "a search")
            run.report(n, 1, short)         # it is not lent them
            must(run, 0, "a report")
        enough = {"highest": blocks}
        for figures in ([HIGHEST_FIELD] * blocks, [HIGHEST + 1] * blocks):      # no ground of 14
            put_first(run, "highest", figures)
            run.start(n, HIGHEST + 1, enough)
            must(run, 14, "a start with U too high")
            run.step(n, 5, 0, enough)
            must(run, 15, "a step past M")
            run.start(n, 5, enough)
            must(run, 0, "a start")
            put_first(run, "highest", figures)
            run.step(n, 5, MOST_STEPS, enough)
            must(run, 0, "a step")
            run.start(n, 5, enough)
        for lent in ({"C": n - 1}, {"C": 0}, {"C": n - 1, "highest": blocks - 1}):
            run.search(n, 5, lent)
            must(run, 13, f"a search with {lent}")
        for other in (0, MOST_SEGMENTS + 1, 2 ** 31, HIGHEST_FIELD):
            run.search(other, 5, {})
            must(run, 13, f"a search of {other} segments")
        for limit in (0, HIGHEST_FIELD):
            run.search(n, limit, {"C": n, **enough})
            must(run, 0, "a search of lists as long as they must be")
        kd = list(run.shelf.content["Kd"])
        put_first(run, "Kd", [HIGHEST_KD + 1] * n)
        for call in (lambda: run.start(n, 5, {"highest": blocks - 1}),
                     lambda: run.step(n, 5, MOST_STEPS, {"highest": blocks - 1})):
            call()
            must(run, 13, "13 of the highest figures before 14 of a segment")
        run.search(n, 5, {})
        must(run, 0, "a search, which tests 13 alone")
        run.shelf.put("Kd", kd)
    return trial


def at_the_cut(library: Library, rng: random.Random, tally: Tally) -> None:
    """A step whose C' is 1,000,000,001 before the cut at 10^9: the highest figure is that of the cut one."""
    run = Run(library, rng, tally, sheets.write(sheets.brook(dt=1, Q=0)), "")
    begun(run, HIGHEST)
    for name, figure in ABOVE_THE_CUT.items():
        put_first(run, name, [figure])
    for name in FIGURES:
        put_first(run, name, [HIGHEST])
    if not run.step(1, HIGHEST, 1, {}):
        raise Difference("a step at the cut is refused")
    content = run.shelf.content
    if (content["y"][0], content["C"][0], content["highest"][0]) != (HIGHEST + 1, HIGHEST, HIGHEST):
        raise Difference(f"before the cut {content['y'][0]}, the highest figure {content['highest'][0]}")
    search_true(run)
