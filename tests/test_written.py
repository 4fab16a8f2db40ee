"""What the repository's scripts write is what is stored: the cases of program `cases`, and what program `samples` prints.
And the pages keep one width of line.

    python3 tests/test_written.py

What scripts write is written anew in a temporary folder and compared byte for byte.  A page's prose has at most 120
columns; wrong pages, in memory, must be refused.
"""
from __future__ import annotations

import os
import sys
import tempfile
from collections.abc import Iterator
from pathlib import Path

import load_cases
import sample_fractions

ROOT = Path(__file__).resolve().parent.parent
LEAST = 3                           # files: what `cases` is given and must print, what `samples` must print


def write_cases(folder: Path) -> None:
    crate = folder / load_cases.CRATE.relative_to(ROOT)
    crate.mkdir(parents=True)
    load_cases.write_cases(load_cases.chosen(), crate / "stdin", crate / "stdout")


def write_samples(folder: Path) -> None:
    crate = folder / sample_fractions.CRATE.relative_to(ROOT)
    crate.mkdir(parents=True)
    (crate / "stdout").write_text(sample_fractions.listing())


def differences(folder: Path) -> list[str]:
    """The files that are not stored as they were written, by their paths."""
    written = sorted(path for path in folder.rglob("*") if path.is_file())
    names = [path.relative_to(folder) for path in written]
    if len(names) < LEAST:
        return [f"only {len(names)} files were written, not {LEAST}"]
    print(f"{len(names)} files written anew")
    return [str(name) for name, path in zip(names, written)
            if not (ROOT / name).is_file() or (ROOT / name).read_bytes() != path.read_bytes()]


# The width of the pages

WIDTH = 120                         # columns
AS_GIVEN = {"docs/01-scope.md", "docs/02-change-requests.md"}
NOT_OURS = {".git", "out"}          # out/ of a crate is rt's
LEAST_PAGES = 19


def wide_lines(page: str) -> list[int]:
    """Lines of prose above WIDTH columns, by number; tables, headings, pictures, code and a single word may be wider."""
    found: list[int] = []
    fenced = indented = False
    before = ""
    for number, line in enumerate(page.splitlines(), 1):
        fence = line.startswith("```")
        indented = line.startswith("    ") and (indented or not before)
        free = fenced or fence or indented or line.startswith(("|", "#", "![")) or len(line.split()) == 1
        fenced ^= fence
        before = line
        if len(line) > WIDTH and not free:
            found.append(number)
    return found


def pages() -> dict[str, str]:
    """The project's pages by their paths, but for the two documents."""
    paths: dict[str, Path] = {}
    for at, folders, names in os.walk(ROOT):
        folders[:] = [name for name in folders if name not in NOT_OURS]
        found = [Path(at, name) for name in names if name.endswith(".md")]
        paths |= {path.relative_to(ROOT).as_posix(): path for path in found}
    return {name: path.read_text(encoding="utf-8") for name, path in sorted(paths.items()) if name not in AS_GIVEN}


def prose(columns: int) -> str:
    return "river " * 19 + "x" * (columns - 6 * 19)


WIDE = prose(WIDTH + 1)
WRONG = {
    "a paragraph": f"# A page\n\n{WIDE}\n",
    "the last line of a paragraph": f"A river:\n{WIDE}\n",
    "an item": f"- {prose(WIDTH - 1)}\n",
    "the second line of an item": f"10. A river:\n    {prose(WIDTH - 3)}\n",
    "a line behind code": f"```\na river\n```\n{WIDE}\n",
}
RIGHT = {
    "a paragraph of 120 columns": f"{prose(WIDTH)}\n",
    "a table": f"| {WIDE} |\n",
    "a heading": f"# {WIDE}\n",
    "a picture": f"![{WIDE}](river.svg)\n",
    "code": f"A river:\n\n    a river\n    {WIDE}\n",
    "code between fences": f"```\n{WIDE}\n```\n",
    "a path": f"{'river/' * 21}\n",
}


def page_faults() -> Iterator[str]:
    """Wide lines, and pages in memory that are taken for what they are not."""
    found = pages()
    print(f"{len(found)} pages, {len(WRONG)} wrong ones, {len(RIGHT)} that are not wrong")
    if len(found) < LEAST_PAGES:
        yield f"only {len(found)} pages, not {LEAST_PAGES}"
    yield from (f"above {WIDTH} columns: {name}:{line}" for name, page in found.items() for line in wide_lines(page))
    yield from (f"not refused: {what}" for what, page in WRONG.items() if not wide_lines(page))
    yield from (f"refused: {what}" for what, page in RIGHT.items() if wide_lines(page))


def main() -> int:
    with tempfile.TemporaryDirectory(prefix="yumbaqel-") as name:
        folder = Path(name)
        write_cases(folder)
        write_samples(folder)
        found = [f"not stored as it is written: {each}" for each in differences(folder)]
    found += page_faults()
    for each in found:
        print(f"  {each}")
    print("FAILED" if found else "passed")
    return int(bool(found))


if __name__ == "__main__":
    sys.exit(main())
