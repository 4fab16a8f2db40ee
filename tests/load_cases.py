"""The cases of program `cases`: sheets for a loading, and the answers and lists that the model gives for them.

    python3 tests/load_cases.py            writes crates/cases/stdin and crates/cases/stdout
    python3 tests/load_cases.py DIR OUT    the same for a folder of vectors (*.otr), as OUT.stdin and OUT.stdout

A case has three fields in front of its sheet (see crates/cases/src/main.rt); the lists are lent full of sevens.
"""
from __future__ import annotations

import sys
from collections.abc import Iterable, Iterator
from itertools import islice
from pathlib import Path
from typing import NamedTuple

import model
import sheets
from model import MARK, Reach
from sheets import BROOK_REACH, UNKNOWN_MARK, Draft, brook, offset, put, still_reaches, word, write

ROOM = 1_100                        # the length of the program's lists
SEVEN = 7
MOST_INPUT = 65_536                 # what the program reads
RECORDS = model.MOST_REACHES
CRATE = Path(__file__).resolve().parent.parent / "crates" / "cases"


class Lent(NamedTuple):
    """A sheet with the length of the list of reach records that is lent and the flow row's number handed."""

    sheet: bytes
    records: int = RECORDS
    row: int = 0


def two_reaches() -> Draft:
    """A river of five segments with every process in it."""
    reach = BROOK_REACH._replace(segments=3, D=400, A=900, AS=300, ALPHA=30_000, qin=40, qout=7, CL=800,
                                 LAMBDA=2_000, LAMBDA2=3_000, LAMHAT=5_000, LAMHAT2=7_000, RHO=20_000, Kd=70,
                                 CB=600, start=500)
    return Draft(model.Header(dt=4, dx=100, M=9, interval=3, top_flow=60),
                 [reach, reach._replace(segments=2, D=900, A=500)],
                 [model.Row(0, 3_000), model.Row(4, 9_000)], [2, 5])


def chosen() -> Iterator[Lent]:
    yield from without_flow_rows()
    yield from with_flow_rows()
    yield from with_bands()


def without_flow_rows() -> Iterator[Lent]:
    """Each bench line, each refusal with its place, cuts inside each section."""
    for case in sheets.bench_cases():
        yield Lent(case.sheet)
    full = two_reaches()
    sheet = write(full)
    yield Lent(sheet)
    yield Lent(sheet, records=2)
    yield Lent(sheet, records=1)                                # 13
    yield Lent(write(still_reaches(1_000, 24)), records=1)
    yield Lent(write(still_reaches(1_000, 25)), records=0)      # 7 before 13
    yield Lent(b"")                                             # 1
    yield Lent(b"OTR")
    yield Lent(UNKNOWN_MARK + sheet[len(MARK):])
    for cut in (*range(len(MARK), len(sheet), 15), offset(full, "count of reaches") + 1):   # 2, in every section
        yield Lent(sheet[:cut])
    for case in islice(sheets.counted_sheets(full), 0, None, 5):        # 3
        yield Lent(case.sheet)
    yield Lent(sheet + b"\0")                                   # 4
    yield Lent(write(full.with_header(dt=0)) + b"\0")
    for name, figure in (("dt", 3_601), ("dx", 9), ("M", 100_001), ("interval", 10), ("top_flow", 100_000_001)):
        yield Lent(put(sheet, offset(full, name), figure))      # 5
    for reach in (1, 2):                                        # 6, the lowest reach
        for name in Reach._fields:
            yield Lent(put(sheet, offset(full, f"reach {reach} {name}"), 2_000_000_000))
    yield Lent(write(full.with_reach(0, segments=0).with_reach(1, segments=0)))
    for case in sheets.disordered_sheets(full):                 # 8 and 9
        yield Lent(case.sheet)
    for top in (19, 20):                                        # 10
        yield Lent(write(full.with_header(top_flow=top).with_reach(0, qin=0, qout=40_000)))
    yield Lent(write(full.with_reach(1, qin=100_000_000)))
    yield Lent(write(full.with_header(top_flow=100_000_000)))
    yield Lent(write(full.with_reach(1, D=0)))                  # 11
    yield Lent(write(full.with_reach(0, D=0).with_reach(1, ALPHA=1_000_000_000)))
    for name in ("ALPHA", "LAMBDA", "LAMBDA2", "LAMHAT", "LAMHAT2"):                        # 12
        yield Lent(write(full.with_reach(1, **{name: 1_000_000_000})))
    yield Lent(write(brook(dt=1, Q=0, ALPHA=705_882_353, A=17, AS=6, D=0)))                 # b rounds to one whole


def with_flow_rows() -> Iterator[Lent]:
    """Each flow's set, each ground of 16 with its row, tests 10 to 12 for rows, and numbers past the rows."""
    full, last = two_reaches().with_flows((1, 0), (4, 7_000), (9, 60)), model.MOST_FLOW_ROWS
    for row in (0, 1, 2, 3, 4, sheets.HIGHEST_FIELD):           # 13 past the rows
        yield Lent(write(full), row=row)
    yield Lent(write(full), records=1, row=2)                   # 13
    yield Lent(write(two_reaches()), row=1)                     # 13: OTR1 has none
    small = brook(dt=2, Q=500, U=9, M=6).with_flows((1, 0), (3, 900), (6, 500))
    sheet, count = write(small), offset(small, "count of flow rows")
    for case in sheets.other_marks(small):                      # 1, 2, 3 and 4
        yield Lent(case.sheet)
    for cut in range(count, len(sheet), 5):                     # 2
        yield Lent(sheet[:cut])
    for figure in (0, last + 1, 2 ** 31):                       # 3
        yield Lent(put(sheet, count, figure))
    yield Lent(sheet + b"\0", row=4)                            # 4 before 13
    for starts in ((0,), (7,), (1, 7), (1, 1), (2, 1), (1, 3, 2), (1, 0)):                  # 16
        yield Lent(write(small.with_flows(*((start, 5) for start in starts))))
    for row in (1, 3):
        yield Lent(put(sheet, offset(small, f"flow row {row} top flow"), model.HIGHEST_FLOW + 1))
    for number in (9, 10, 11, 12):                              # 9 before 16, and 16 before 10 to 12
        yield Lent(sheets.with_faults(sheets.plain_flows(), [number, 16], {}, {}))
    for fault in sheets.flow_faults():                          # 10 to 12
        if len(fault.draft.flow_rows) < 3:
            yield Lent(write(fault.draft))
    for draft in (sheets.falling(114, *[114] * (last - 1), 113), sheets.halving(100, *[0, 100] * (last // 2))):
        yield Lent(write(draft), row=last)
    yield Lent(write(sheets.filling(0, 334)), row=2)            # 12 before 13


def with_bands() -> Iterator[Lent]:
    """Each flow's set by its bands, each ground of 19 with its reach, the tests beside it, and 10 to 12 by the bands."""
    low, high = (900, 400, 300), (1_500, 600, 700)
    full = two_reaches().with_flows((1, 0), (4, 7_000), (9, 60)).with_bands(sheets.parted(60, low, high),
                                                                            sheets.parted(61, high, low)[::-1])
    for row in range(5):                                        # 13 past the rows
        yield Lent(write(full), row=row)
    yield Lent(write(full), records=1)                          # 13
    small = brook(dt=1, Q=500, U=9, M=3).with_flows((1, 0), (3, 501)).with_bands(
        sheets.parted(501, (100, 60, 90), (120, 70, 80)))
    sheet, count = write(small), offset(small, "count of bands of reach 1")
    for row in (0, 1, 2):
        yield Lent(sheet, row=row)
    for case in sheets.band_marks(small):                       # 1, 2, 3 and 4
        yield Lent(case.sheet)
    for cut in range(count + 1, len(sheet), 11):                # 2
        yield Lent(sheet[:cut])
    for figure in (model.MOST_BANDS + 1, 2 ** 31, sheets.HIGHEST_FIELD):        # 3
        yield Lent(put(sheet, count, figure))
    yield Lent(sheet + b"\0", row=4)                            # 4 before 13
    for table in sheets.good_tables().values():
        if len(table) < 4:
            yield Lent(write(small.with_table(0, [band._replace(A=100, D=60, AS=90) for band in table])))
    for name, table in sheets.bad_tables().items():             # 19
        if len(table) < 4 and "every segment's" not in name and str(2 ** 31) not in name:
            yield Lent(write(small.with_table(0, table)))
    for first, second in ((sheets.GAP, sheets.OVERLAP), ([], sheets.OVERLAP), (sheets.OVERLAP, [])):
        yield Lent(write(full.with_bands(first, second)))       # the lowest reach
    for number in (6, 16, 10, 12):                              # 6 and 16 before 19, and 19 before 10 and 12
        yield Lent(sheets.with_faults(sheets.plain_bands(), sorted((number, 19)), {}, {}))
    for fault in sheets.band_flow_faults():                     # 10 to 12
        yield Lent(write(fault.draft))


def answer(lent: Lent) -> str:
    """What the program prints for a case."""
    lists = model.Lists(ROOM, SEVEN)
    try:
        found = model.load(lent.sheet, lent.row, lists, [None] * lent.records)
        line = "accepted " + " ".join(str(figure) for figure in found)
    except model.Refusal as refusal:
        place = "nothing" if refusal.place is None else " ".join(str(part) for part in refusal.place)
        line = f"refused {refusal.number} {place}"
    sums = "".join(f" {sum(column)}" for column in lists.column.values())
    return f"{line}\n{sums}\n"


def write_cases(cases: Iterable[Lent], given: Path, wanted: Path) -> int:
    """The input and the output that belong together; the count of cases."""
    taken = list(cases)
    text = b"".join(word(len(lent.sheet)) + word(lent.records) + word(lent.row) + lent.sheet for lent in taken)
    if len(text) > MOST_INPUT:
        raise SystemExit(f"{len(text)} bytes are more than the program reads")
    given.write_bytes(text)
    wanted.write_text("".join(answer(lent) for lent in taken))
    return len(taken)


def main(arguments: list[str]) -> int:
    if arguments:
        folder, out = arguments
        cases = (Lent(path.read_bytes()) for path in sorted(Path(folder).glob("*.otr")))
        given, wanted = Path(out + ".stdin"), Path(out + ".stdout")
    else:
        cases, given, wanted = chosen(), CRATE / "stdin", CRATE / "stdout"
    print(write_cases(cases, given, wanted), "cases")
    return 0


if __name__ == "__main__":
    sys.exit(main(sys.argv[1:]))
