"""The header's parts, and wrong headers made of it by single edits.

Nothing here compiles or knows a right figure: `test_header.py` does.
"""
from __future__ import annotations

import re
from collections.abc import Iterable, Iterator
from functools import cached_property, lru_cache
from itertools import combinations
from typing import NamedTuple

KEYWORDS = {"if", "for", "sizeof", "return"}
OTHERS = {"<": "<=", ">": ">=", "==": "!=", "!=": "==", "||": "&&", "+": "-"}
RESULTS = ("void", "uint32_t", "uint64_t")
EXPORT = r"^(?!static|typedef)(?:\w+ )+(\w+)\(([^)]*)\)(;)"
TOKEN = re.compile(r'"[^"\n]*"|\w+|->|[^\w\s]')


class Span(NamedTuple):
    begin: int
    end: int


class Struct(NamedTuple):
    """A struct and the spans of its fields' names, in their order."""

    name: str
    fields: dict[str, Span]


class Function(NamedTuple):
    """A function that the header declares or defines; the body is empty where it only declares it."""

    name: str
    parameters: list[Span]
    body: Span


class Macro(NamedTuple):
    name: str
    body: Span


class Wrong(NamedTuple):
    """A wrong header and the one edit that made it."""

    kind: str
    edit: str
    text: str


def without_comments(text: str) -> str:
    """Every comment as blanks, so that places stay the same."""
    return re.sub(r"/\*.*?\*/", lambda found: re.sub(r"[^\n]", " ", found[0]), text, flags=re.S)


@lru_cache(1_000)
def tokens(text: str) -> list[str]:
    return TOKEN.findall(without_comments(text))


def parted(code: str, begin: int, end: int) -> list[Span]:
    """The parts of a stretch between its commas, but for those inside brackets, and without blanks around them."""
    found, depth, first = [], 0, begin
    for at in range(begin, end + 1):
        if at == end or (code[at] == "," and depth == 0):
            part = re.sub(r"\\\n", "  ", code[first:at])
            if part.strip():
                found.append(Span(first + len(part) - len(part.lstrip()), at - len(part) + len(part.rstrip())))
            first = at + 1
        else:
            depth += (code[at] in "({[") - (code[at] in ")}]")
    return found


def closing(code: str, at: int) -> int:
    """Where the bracket that opens here is closed."""
    depth = 0
    for place in range(at, len(code)):
        depth += (code[place] in "({[") - (code[place] in ")}]")
        if depth == 0:
            return place
    raise ValueError("a bracket is not closed")


class Header:
    """The text of a header, and its parts by their names."""

    def __init__(self, text: str) -> None:
        self.text = text
        self.code = without_comments(text)

    def found(self, pattern: str) -> Iterator[re.Match[str]]:
        return re.finditer(pattern, self.code, re.M)

    @cached_property
    def constants(self) -> dict[str, Span]:
        return {found[1]: Span(*found.span(2)) for found in self.found(r"^#define (YUMBAQEL_\w+) +(\S+) *$")}

    @cached_property
    def macros(self) -> list[Macro]:
        return [Macro(found[1], Span(*found.span(2)))
                for found in self.found(r"^#define (YUMBAQEL_\w+)\(\w+\)((?:[^\n]*\\\n)*[^\n]*)")]

    @cached_property
    def enums(self) -> dict[str, dict[str, Span]]:
        return {found[1]: {member[1]: Span(found.start(2) + member.start(2), found.start(2) + member.end(2))
                           for member in re.finditer(r"(\w+) = (\w+)", found[2])}
                for found in self.found(r"\benum (\w+) \{([^}]*)\};")}

    @cached_property
    def structs(self) -> list[Struct]:
        return [Struct(found[1], self.fields(*found.span(2)))
                for found in self.found(r"\bstruct (\w+) \{([^}]*)\};")]

    @cached_property
    def checks(self) -> list[str]:
        return [found[1] for found in self.found(r"^typedef char (\w+)\[")]

    @cached_property
    def exports(self) -> list[Function]:
        return [self.function(found) for found in self.found(EXPORT)]

    @cached_property
    def declared(self) -> dict[str, list[str]]:
        """The words of each exported function's declaration."""
        return {found[1]: tokens(self.code[found.start():found.end(2) + 1]) for found in self.found(EXPORT)}

    @cached_property
    def helpers(self) -> list[Function]:
        return [self.function(found) for found in self.found(r"^static inline [\w ]+?\b(\w+)\(([^)]*)\)\n(\{)")]

    def fields(self, begin: int, end: int) -> dict[str, Span]:
        """The names that the declarations of this stretch declare."""
        found: dict[str, Span] = {}
        at = begin
        for declaration in self.code[begin:end].split(";"):
            for part in parted(self.code, at, at + len(declaration)):
                name = re.search(r"(\w+)(?:\[\w+\])?$", self.code[part.begin:part.end])
                found[name[1]] = Span(part.begin + name.start(1), part.begin + name.end(1))
            at += len(declaration) + 1
        return found

    def function(self, found: re.Match[str]) -> Function:
        body = Span(found.end(), found.end())
        if found[3] == "{":
            body = Span(found.start(3), closing(self.code, found.start(3)))
        return Function(found[1], parted(self.code, *found.span(2)), body)

    def names(self) -> set[str]:
        """Every name that a caller can write."""
        return {*self.constants, *(macro.name for macro in self.macros), *self.enums, *self.checks,
                *(member for members in self.enums.values() for member in members),
                *(struct.name for struct in self.structs),
                *(f"{struct.name}.{field}" for struct in self.structs for field in struct.fields),
                *(function.name for function in (*self.exports, *self.helpers))}

    def argument_lists(self) -> Iterator[tuple[str, list[Span]]]:
        """The arguments of every call in a helper, the entries of every list in braces, and macros that are lists."""
        for macro in self.macros:
            yield macro.name, parted(self.code, *macro.body)
        for helper in self.helpers:
            for found in re.finditer(r"(\w+)\(|= (\{)", self.code[helper.body.begin:helper.body.end]):
                if found[1] not in KEYWORDS:
                    at = helper.body.begin + found.end() - 1
                    parts = parted(self.code, at + 1, closing(self.code, at))
                    yield f"{helper.name}: {found[1] or 'a list'}", parts

    # the edits

    def put(self, span: Span, word: str) -> str:
        return self.text[:span.begin] + word + self.text[span.end:]

    def exchanged(self, first: Span, second: Span) -> str:
        first, second = sorted((first, second))
        text = self.text
        return (text[:first.begin] + text[second.begin:second.end] + text[first.end:second.begin]
                + text[first.begin:first.end] + text[second.end:])

    def pairs(self, kind: str, where: str, spans: Iterable[Span]) -> Iterator[Wrong]:
        """Each pair of these exchanged."""
        for first, second in combinations(spans, 2):
            words = (self.text[span.begin:span.end] for span in (first, second))
            yield Wrong(kind, "{}: {} and {} exchanged".format(where, *words), self.exchanged(first, second))

    def wrong_figures(self) -> Iterator[Wrong]:
        """Each figure of the code one more, one less and halved: constants, enums, macros, checks, helpers."""
        for found in re.finditer(r"(?<![\w.])\d+(?!\w)", self.code):
            figure = int(found[0])
            line = self.text[self.text.rfind("\n", 0, found.start()) + 1:self.text.find("\n", found.end())]
            for other in sorted({figure + 1, figure - 1, figure // 2} - {figure, -1}):
                edited = self.put(Span(*found.span()), str(other))
                yield Wrong("figure", f"{figure} is {other}: {line.strip()}", edited)

    def wrong_operators(self) -> Iterator[Wrong]:
        """Each comparison of a helper moved by one or turned round, each "or" made an "and"."""
        for helper in self.helpers:
            for found in re.finditer(r" ([<>]|==|!=|\|\||\+) ", self.code[helper.body.begin:helper.body.end]):
                other = OTHERS[found[1]]
                span = Span(helper.body.begin + found.start(1), helper.body.begin + found.end(1))
                before = " ".join(self.text[span.begin - 30:span.end + 20].split())
                yield Wrong("operator", f"{helper.name}: {found[1]} is {other} in {before}", self.put(span, other))

    def without_const(self) -> Iterator[Wrong]:
        """Each const of a helper's parameters left out."""
        for helper in self.helpers:
            for parameter in helper.parameters:
                for found in re.finditer(r"\bconst ", self.code[parameter.begin:parameter.end]):
                    span = Span(parameter.begin + found.start(), parameter.begin + found.end())
                    words = self.text[parameter.begin:parameter.end]
                    yield Wrong("const", f"{helper.name}: {words} without const", self.put(span, ""))

    def wrong_members(self) -> Iterator[Wrong]:
        """Each field that a helper or a macro names replaced by the next one of its struct."""
        stretches = [(each.name, each.body) for each in (*self.helpers, *self.macros)]
        for name, body in stretches:
            for found in re.finditer(r"(?:->|\.)(\w+)", self.code[body.begin:body.end]):
                for struct in self.structs:
                    fields = list(struct.fields)
                    if found[1] in fields:
                        other = fields[(fields.index(found[1]) + 1) % len(fields)]
                        span = Span(body.begin + found.start(1), body.begin + found.end(1))
                        yield Wrong("member", f"{name}: {found[1]} is {other}", self.put(span, other))

    def lists_exchanged(self) -> Iterator[Wrong]:
        """Each pair of lists exchanged in a macro, pointer and length."""
        for macro in self.macros:
            body = self.text[macro.body.begin:macro.body.end]
            names = list(dict.fromkeys(re.findall(r"->(\w+)", body)))
            for pair in combinations(names, 2):
                other = dict(zip(pair, reversed(pair)))
                edited = re.sub(r"->(\w+)", lambda found: f"->{other.get(found[1], found[1])}", body)
                what = "{}: {} and {} exchanged".format(macro.name, *pair)
                yield Wrong("list", what, self.put(macro.body, edited))

    def wrong_headers(self) -> Iterator[Wrong]:
        """All that compiling or running has to show: each once, and none that is the header itself."""
        seen = {self.text}
        for wrong in self.edits():
            if wrong.text not in seen:
                seen.add(wrong.text)
                yield wrong

    def edits(self) -> Iterator[Wrong]:
        yield from self.wrong_figures()
        for name, members in self.enums.items():
            yield from self.pairs("enum", name, members.values())
        for struct in self.structs:
            yield from self.pairs("field", struct.name, struct.fields.values())
        for where, spans in self.argument_lists():
            yield from self.pairs("argument", where, spans)
        for helper in self.helpers:
            yield from self.pairs("parameter", helper.name, helper.parameters)
        yield from self.lists_exchanged()
        yield from self.wrong_members()
        yield from self.wrong_operators()
        yield from self.without_const()

    def wrong_declarations(self) -> Iterator[Wrong]:
        """Each pair of parameters of an exported function exchanged; where the types agree, only reading shows it.
        And each result of another type."""
        for function in self.exports:
            yield from self.pairs("declaration", function.name, function.parameters)
        for found in self.found(rf"^({'|'.join(RESULTS)}) (\w+)\([^)]*\);"):
            for other in RESULTS:
                if other != found[1]:
                    edited = self.put(Span(*found.span(1)), other)
                    yield Wrong("declaration", f"{found[2]}: the result is {other}", edited)
