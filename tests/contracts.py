"""The functions of the crates' sources and their contracts, by a small reader.

It knows the items of a module and the clauses of a contract, and passes over types and bodies.  What it does not know
it refuses, so that nothing is passed over by mistake.
"""
from __future__ import annotations

import re
from collections.abc import Iterator
from typing import NamedTuple

ASKING = ("requires", "ghost")      # what a caller has to see to: a fact, or a value that no code holds
CLAUSE = re.compile(rf"\b({'|'.join(ASKING)}|ensures)(?:\s+\w+)?\s*$")
RESULT = re.compile(r"\s*(?:->\s*(?:&(?:'\w+\s+)?(?:mut\s+)?)?(?:[\w:]+(?:<(?:[^<>]|<[^<>]*>)*>)?|\[[^\]]*\]|\([^)]*\))\s*)?")
INNER = re.compile(r"\s*#!\[[^\]]*\]")        # an attribute of the whole file
ITEM = re.compile(r"\s*(?P<attributes>(?:#\[[^\]]*\]\s*)*)(?P<public>pub(?:\s*\([^)]*\))?\s+)?"
                  r"(?:const\s+(?=fn\b|extern\b))?(?:extern\s*\"\w*\"\s*(?=fn\b))?"
                  r"(?P<kind>ghost\s+use|ghost(?=\s+\w+\s*=)|use|mod|impl|fn|struct|enum|const|type)\b\s*(?P<name>\w*)")
# what stands between `impl` and its block: parameters, a trait whose methods these are, and the type with its own
IMPL = re.compile(r"(?:<[^{}]*?>\s*)?(?P<trait>[\w:]+(?:<[^{}]*>)?\s+for\s+)?(?P<type>\w+)\s*(?:<[^{}]*>)?\s*")
STATED = re.compile(r"\bghost\s+(\w+)\s*=")  # what an impl says of a trait's methods
# comments; strings and characters, whose content is no code
OPAQUE = re.compile(r"//[^\n]*|/\*.*?\*/|\"(?:\\.|[^\"\\])*\"|'(?:\\.|[^'\\\n])'", re.S)
BRACKETS = {"{": "}", "(": ")", "[": "]"}


class Unreadable(Exception):
    """What the reader does not know."""


class Function(NamedTuple):
    """A function by its path, which begins with its crate, and the clauses of its contract."""

    path: str
    file: str
    exported: bool                  # marked #[unsafe(no_mangle)]
    exposed: bool                   # another crate can call it
    asks: list[str]
    ensures: list[str]

    @property
    def crate(self) -> str:
        return self.path.split("::")[0]


def without_comments(text: str) -> str:
    """The text with each comment as blanks and each string as x's, so that every place stays where it is."""
    def blanks(found: re.Match[str]) -> str:
        blank = " " if found[0].startswith("/") else "x"
        inner = re.sub(r"[^\n]", blank, found[0][1:-1])
        ends = (" ", " ") if blank == " " else (found[0][0], found[0][-1])
        return ends[0] + inner + ends[1]
    return OPAQUE.sub(blanks, text)


class Module:
    """A stretch of a file that holds items."""

    def __init__(self, files: dict[str, str], file: str, path: tuple[str, ...], exposed: bool) -> None:
        self.files, self.file, self.path, self.exposed = files, file, path, exposed
        self.code = without_comments(files[file])

    def refuse(self, at: int) -> Unreadable:
        line = self.code.count("\n", 0, at) + 1
        return Unreadable(f"{self.file}, line {line}: {' '.join(self.code[at:at + 60].split())}")

    def closing(self, at: int) -> int:
        """Behind the bracket that closes the one here."""
        expected = []
        for place in range(at, len(self.code)):
            if self.code[place] in BRACKETS:
                expected.append(BRACKETS[self.code[place]])
            elif self.code[place] in BRACKETS.values() and self.code[place] != expected.pop():
                raise self.refuse(at)
            if not expected:
                return place + 1
        raise self.refuse(at)

    def next(self, at: int, marks: str) -> int:
        """The first of these marks that stands in no bracket."""
        while at < len(self.code) and self.code[at] not in marks:
            at = self.closing(at) if self.code[at] in BRACKETS else at + 1
        if at == len(self.code):
            raise self.refuse(at)
        return at

    def items(self, at: int = 0, end: int | None = None, within: tuple[str, ...] = ()) -> Iterator[Function]:
        """The functions from here to there; `within` is the type whose `impl` they stand in."""
        end = len(self.code) if end is None else end
        while inner := INNER.match(self.code, at):
            at = inner.end()
        while self.code[at:end].strip():
            item = ITEM.match(self.code, at)
            if item is None or item.end() > end:
                raise self.refuse(at + len(self.code[at:end]) - len(self.code[at:end].lstrip()))
            public = (item["public"] or "").strip() == "pub"
            kind = " ".join(item["kind"].split())
            if kind == "fn":
                function, at = self.function(item, within, public)
                yield function
            elif kind == "mod":
                at = self.next(item.end(), ";{") + 1
                if self.code[at - 1] == "{":
                    raise self.refuse(item.start("kind"))       # modules stand in files of their own
                yield from self.module(item["name"], public)
            elif kind == "impl":
                begin = self.next(item.end(), "{")
                header = IMPL.fullmatch(self.code, item.start("name"), begin)
                if within or header is None:
                    raise self.refuse(item.start("kind"))
                at = self.closing(begin)
                inside = self.items(begin + 1, at - 1, (header["type"],))
                yield from self.of_trait(inside, STATED.findall(self.code, begin, at)) if header["trait"] else inside
            elif kind in ("struct", "enum"):
                at = self.next(item.end(), ";{")
                at = at + 1 if self.code[at] == ";" else self.closing(at)
            else:
                at = self.next(item.end(), ";") + 1
                named = self.code[item.start("name"):at]
                if kind == "use" and public and not self.known_again(named):
                    raise self.refuse(item.start("kind"))

    def of_trait(self, methods: Iterator[Function], stated: list[str]) -> Iterator[Function]:
        """Whoever has the type can call a trait's methods; what the impl states of the trait counts as their `ensures`."""
        for each in methods:
            yield each._replace(exposed=self.exposed, ensures=each.ensures + stated)

    def known_again(self, named: str) -> bool:
        """Of what is exposed again only constants are known, and types whose own module gives them no functions."""
        found = re.fullmatch(r"(\w+)::[A-Z]\w*\s*;", named)
        text = self.files.get("/".join((*self.file.split("/")[:3], *self.path[1:], f"{found[1]}.rt"))) if found else None
        return text is not None and not re.search(r"\bimpl\b", without_comments(text))

    def module(self, name: str, public: bool) -> Iterator[Function]:
        inside = "/".join((*self.file.split("/")[:3], *self.path[1:], f"{name}.rt"))
        if inside not in self.files:
            raise Unreadable(f"{inside}, which {self.file} names, is not there")
        yield from Module(self.files, inside, (*self.path, name), self.exposed and public).items()

    def function(self, item: re.Match[str], within: tuple[str, ...], public: bool) -> tuple[Function, int]:
        """A function, and where it ends."""
        at = self.closing(self.next(item.end(), "("))
        result = RESULT.match(self.code, at)
        at, asks, ensures = result.end(), [], []
        while True:
            begin = self.next(at, "{;")
            clause = CLAUSE.match(self.code[at:begin].strip())
            if clause is None and self.code[at:begin].strip() or self.code[begin] == ";":
                raise self.refuse(at)
            at = self.closing(begin)
            if clause is None:
                path, exported = "::".join((*self.path, *within, item["name"])), "no_mangle" in item["attributes"]
                return Function(path, self.file, exported, self.exposed and public, asks, ensures), at
            (asks if clause[1] in ASKING else ensures).append(" ".join(self.code[begin + 1:at - 1].split()))


def functions(files: dict[str, str]) -> list[Function]:
    """Those of every crate among the files, which are its sources by their paths."""
    found = []
    for file in sorted(files):
        parts = file.split("/")
        if len(parts) == 4 and parts[3] in ("lib.rt", "main.rt"):
            found += Module(files, file, (parts[1],), parts[3] == "lib.rt").items()
    return found
