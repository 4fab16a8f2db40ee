"""Makes, reads and explains river sheets.

    python3 tools/sheet.py make FILE.txt -o FILE.otr    a sheet from its text
    python3 tools/sheet.py read FILE.otr [-o FILE.txt]  the text of a sheet
    python3 tools/sheet.py explain FILE.otr             why a sheet is refused, or what an accepted one holds

A file may be - for standard input or output.  The exit status is 0 when all is well, 1 when the text has a
mistake, the sheet is refused or a file cannot be read or written.  docs/TOOLS.md describes the text.
"""
from __future__ import annotations

import argparse

import command
import explain
import sheet_text
from command import given, put, say


def make(asked: argparse.Namespace) -> int:
    """Writes the sheet when document 01 accepts it; mistakes and roundings go to standard error."""
    made = sheet_text.make(command.given_text(asked.file))
    for note in made.rounded:
        say(f"{asked.file}, line {note.line}: {note.words}")
    for mistake in made.mistakes:
        say(f"{asked.file}, line {mistake.line}: {mistake.words}")
    if made.sheet is None or (made.mistakes and not asked.even_refused):
        say("no sheet was written")
        return 1
    put(asked.output, made.sheet)
    return 0


def read(asked: argparse.Namespace) -> int:
    """Prints the text of a sheet that passes tests 1 to 4."""
    sheet = given(asked.file)
    found = explain.faults(sheet)
    if found and found[0].number in explain.BYTE_TESTS:
        say(explain.refusal_words(found))
        return 1
    put(asked.output, sheet_text.read(sheet).encode("utf-8"))
    return 0


def explain_sheet(asked: argparse.Namespace) -> int:
    sheet = given(asked.file)
    print(explain.words(sheet))
    return 1 if explain.faults(sheet) else 0


def arguments() -> argparse.Namespace:
    parser = argparse.ArgumentParser(description="Makes, reads and explains river sheets.")
    commands = parser.add_subparsers(dest="command", required=True)
    for name, call, words in (("make", make, "a sheet from its text"), ("read", read, "the text of a sheet"),
                              ("explain", explain_sheet, "why a sheet is refused, or what it holds")):
        each = commands.add_parser(name, help=words)
        each.set_defaults(call=call)
        each.add_argument("file")
        if name == "make":
            each.add_argument("-o", "--output", required=True)
            each.add_argument("--even-refused", action="store_true",
                              help="write a sheet that document 01 refuses, too")
        elif name == "read":
            each.add_argument("-o", "--output", default="-")
    return parser.parse_args()


def main() -> int:
    asked = arguments()
    return asked.call(asked)


if __name__ == "__main__":
    command.run(main)
