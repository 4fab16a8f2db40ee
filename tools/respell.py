#!/usr/bin/env python3
"""Spells the repository's own definitions, fields and lemmas as Rattle's libraries spell theirs: words in snake case, a dash only between two names.

usage: respell.py [ROOT]

It was run once, after the toolchain's own port.py, at the top of the repository. tools/respelled.tsv has a row for each name: the old spelling, a
tab, the new one and, where the row is for some crates alone, a tab and their names. Whole words turn, in crates/: in .antt files, in the clauses of
.rt files and in must-fail edits, and in the code spans of .md files. A row whose old name has a dash or an underscore turns in the code of .antt
files and of edits alone, since such a name may be a word of prose or one of Rust's. Functions of src/, exported names, strings and outputs stay. It
is run once: a name that one row leaves may stand first in another.
"""
import pathlib
import re
import sys

WORD = re.compile(r"(?<![^\s(){}\[\].;:,@\"«»`&*|])[^\s(){}\[\].;:,@\"«»`&*|]+")
RUST_WORD = re.compile(r"(?<![\w'])[A-Za-z_][\w']*")


def rows(path):
    found = []
    for line in path.read_text().splitlines():
        old, new, *where = line.split("\t")
        found.append((old, new, where[0].split() if where else None))
    return found


def turned(text, table, word):
    return word.sub(lambda m: table.get(m[0], m[0]), text)


def spans_turned(text, table, word):
    return re.sub(r"`[^`\n]*`", lambda m: turned(m[0], table, word), text)


def plain(table):
    return {old: new for old, new in table.items() if not re.search("[-_]", old)}


def in_antt(text, table):
    lines = []
    for line in text.split("\n"):
        at = re.search(r"(^|\s)--(\s|$)", line)
        code, said = (line[: at.start()], line[at.start() :]) if at else (line, "")
        said = spans_turned(turned(said, plain(table), WORD), table, WORD)
        lines.append(turned(code, table, WORD) + said)
    return "\n".join(lines)


def in_rust(text, table):
    parts = re.split(r'("(?:[^"\\]|\\.)*")', text)
    return "".join(it if i % 2 else turned(it, plain(table), RUST_WORD) for i, it in enumerate(parts))


def in_edit(text, table):
    is_antt = re.search(r"(?m)^file: .*\.antt$", text)
    lines = []
    for line in text.split("\n"):
        if line.startswith(("old: ", "new: ")):
            line = turned(line, table, WORD) if is_antt else turned(line, plain(table), RUST_WORD)
        lines.append(line)
    return "\n".join(lines)


def main(root):
    found = rows(pathlib.Path(__file__).with_name("respelled.tsv"))
    paths = [it for it in sorted((root / "crates").rglob("*")) if it.is_file() and "out" not in it.relative_to(root).parts]
    paths += sorted(root.glob("*.md")) + sorted((root / "docs").rglob("*.md"))
    for path in paths:
        parts = path.relative_to(root).parts
        crate = parts[1] if parts[0] == "crates" else ""
        table = {old: new for old, new, where in found if where is None or crate in where}
        how = {".antt": in_antt, ".rt": in_rust, ".edit": in_edit, ".md": lambda t, tab: spans_turned(t, plain(tab), WORD)}.get(path.suffix)
        if how and parts[:2] not in (("docs", "01-scope.md"), ("docs", "02-change-requests.md")):
            text = path.read_text()
            new = how(text, table)
            if new != text:
                path.write_text(new)


if __name__ == "__main__":
    main(pathlib.Path(sys.argv[1] if len(sys.argv) > 1 else "."))
