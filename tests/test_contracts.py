"""What can be called from outside asks nothing of its caller and says what it does.

    python3 tests/test_contracts.py

A proof shows that a function meets its contract, and not that the contract is one to rely on: with a `requires` that no
caller can meet it says nothing.  So this holds the sources to docs/DECISIONS.md, "Public calls and leaves":

- the exports, the carriers of claims and the documents' calls have no `requires` and at least one `ensures`;
- each claim stands by itself in an `ensures` of a carrier and of an export;
- a crate that holds a call, and that of the exports, exposes no other function with a `requires`;
- every function that a library crate exposes has an `ensures`; those with a `requires` are the leaves of the page;
- every function of program `river` has an `ensures`, but `main`, which has no result and is lent nothing.

Then wrong trees are made by single edits, in memory, and each of them must be refused.
"""
from __future__ import annotations

import re
import sys
from collections.abc import Iterator
from pathlib import Path
from typing import NamedTuple

from contracts import Function, Unreadable, functions, without_comments

ROOT = Path(__file__).resolve().parent.parent
PAGE = "docs/DECISIONS.md"
SECTION = "## Public calls and leaves\n"
LIBRARY = "yumbaqel"                # the crate of the exports
PROGRAM = "river"
SPECS = "crates/model/specs/"
CLAIMS = re.compile(r"crates/(?:forecast_)?model/specs/(\w*Claim)\.antt")
UNREADABLE = "not readable"
LEAST = {"exports": 26, "carriers": 6, "claims": 16, "calls": 17, "of the program": 4}

Files = dict[str, str]              # texts by their paths


def read_files() -> Files:
    """The sources, the definitions of the claims, and the page."""
    paths = [*ROOT.glob("crates/*/src/**/*.rt"), *ROOT.glob("crates/*model/specs/*Claim.antt"), ROOT / PAGE]
    return {path.relative_to(ROOT).as_posix(): path.read_text() for path in paths}


# What the page and the definitions say


def listed(page: str, heading: str) -> list[str]:
    """The functions in the first column of the section's table with this heading."""
    section = page[page.index(SECTION) + len(SECTION):]
    section = section[:section.index("\n## ")]
    table = re.search(rf"^\| {heading} \|.*\n\|[-|]+\n((?:\|.*\n)+)", section, re.M)
    rows = table[1].splitlines() if table else []
    return [name for row in rows for name in re.findall(r"`([\w:]+)`", row.split("|")[1])]


class Claim(NamedTuple):
    module: str
    name: str


def stated_claims(files: Files) -> set[Claim]:
    """The statements without parameters in the definitions of the claims."""
    return {Claim(found[1], name) for file, text in files.items() if (found := CLAIMS.fullmatch(file))
            for name in re.findall(r"^(?:abbrev pub|pub record) (\w+) : Type 0(?: where)?$", text, re.M)}


def known_claims(function: Function, files: Files) -> set[Claim]:
    """Those that the function's file uses."""
    used = re.findall(r"^ghost use Rattle\.(?:forecast_)?model\.specs\.(\w*Claim)\.\{([^}]*)\};",
                      without_comments(files[function.file]), re.M)
    return {Claim(module, name.strip()) for module, names in used for name in names.split(",")}


def named_claims(function: Function, files: Files) -> set[Claim]:
    """Those that its `ensures` speak of."""
    words = {word for text in function.ensures for word in re.findall(r"\w+", text)}
    return {claim for claim in known_claims(function, files) if claim.name in words}


def carried_claims(function: Function, files: Files) -> set[Claim]:
    """Those that stand by themselves in one of them."""
    return {claim for claim in known_claims(function, files) if claim.name in function.ensures}


# The rules


class Tree:
    """What the rules speak of."""

    def __init__(self, files: Files) -> None:
        self.files = files
        self.functions = functions(files)
        self.exposed = [each for each in self.functions if each.exposed]
        self.exports = [each for each in self.functions if each.exported]
        self.carriers = [each for each in self.exposed if each.crate.endswith("_claim")]
        self.named_calls, self.named_leaves = (listed(files[PAGE], heading) for heading in ("call", "leaf"))
        self.calls = [each for each in self.exposed if each.path in self.named_calls]
        self.leaves = [each for each in self.exposed if each.asks]
        self.program = [each for each in self.functions if each.crate == PROGRAM and each.path != f"{PROGRAM}::main"]
        self.claims = stated_claims(files).union(*(named_claims(each, files) for each in self.carriers))

    def counts(self) -> dict[str, int]:
        return {"functions": len(self.functions), "exports": len(self.exports), "carriers": len(self.carriers),
                "claims": len(self.claims), "calls": len(self.calls), "leaves": len(self.leaves),
                "of the program": len(self.program)}

    def faults(self) -> Iterator[str]:
        yield from self.total_faults()
        yield from self.claim_faults()
        yield from self.exposed_faults()
        for what, least in LEAST.items():
            if self.counts()[what] < least:
                yield f"there are only {self.counts()[what]} {what}, not {least}"

    def total_faults(self) -> Iterator[str]:
        """Of what is called with whatever there is."""
        for what, group in (("an export", self.exports), ("a carrier", self.carriers), ("a call", self.calls)):
            for function in group:
                yield from (f"{function.path}, {what}, asks {text}" for text in function.asks)
                if not function.ensures:
                    yield f"{function.path}, {what}, has no `ensures`"
        missing = set(self.named_calls) - {each.path for each in self.calls}
        yield from (f"{path}, a call of the page, is not exposed" for path in sorted(missing))

    def claim_faults(self) -> Iterator[str]:
        for what, group in (("carrier", self.carriers), ("export", self.exports)):
            carried = {claim for function in group for claim in carried_claims(function, self.files)}
            yield from (f"{claim.module}.{claim.name} stands in the `ensures` of no {what}"
                        for claim in sorted(self.claims - carried))
        for function in self.carriers:
            if not carried_claims(function, self.files):
                yield f"{function.path} carries no claim"

    def exposed_faults(self) -> Iterator[str]:
        yield from (f"{each.path} has no `ensures`" for each in self.exposed + self.program if not each.ensures)
        closed = {LIBRARY, *(path.split("::")[0] for path in self.named_calls)}
        found, named = {each.path for each in self.leaves}, set(self.named_leaves)
        yield from (f"{each.path} asks {each.asks[0]} in a crate that holds calls"
                    for each in self.leaves if each.crate in closed)
        yield from (f"{path} asks and is no leaf of the page" for path in sorted(found - named))
        yield from (f"{path}, a leaf of the page, is none" for path in sorted(named - found))


def faults(files: Files) -> list[str]:
    try:
        return list(Tree(files).faults())
    except Unreadable as what:
        return [f"{UNREADABLE}: {what}"]


# Wrong trees, each by one edit


class Edit(NamedTuple):
    """The first place of a pattern in a file, and what is put there; `named` is what a fault must name."""

    what: str
    file: str
    pattern: str
    by: str
    named: str

    def made(self, files: Files) -> Files:
        text, count = re.subn(self.pattern, self.by, files[self.file], count=1, flags=re.S | re.M)
        if count != 1:
            raise Unreadable(f"{self.file} has no place for: {self.what}")
        return {**files, self.file: text}


def source(crate: str, module: str = "lib") -> str:
    return f"crates/{crate}/src/{module}.rt"


def asking(path: str, what: str, clause: str = "requires { ⊥ }", module: str = "lib") -> Edit:
    """A clause in front of a function's `ensures`; `what` is what the function is called."""
    name = path.split("::")[-1]
    return Edit(f"{path} with {clause}", source(path.split("::")[0], module), rf"(\bfn {name}\b[^{{]*?)(\n +ensures )",
                rf"\1\n{clause}\2", f"{path}{what} asks")


def silent(path: str, what: str, module: str = "lib") -> Edit:
    """A function without its one `ensures`."""
    name = path.split("::")[-1]
    return Edit(f"{path} without `ensures`", source(path.split("::")[0], module),
                rf"(\bfn {name}\b[^{{]*?)\n +ensures [^\n]*(?=\n *\{{)", r"\1", f"{path}{what} has no")


def without_claim(crate: str, claim: str, what: str) -> Edit:
    return Edit(f"{crate} without {claim}", source(crate), rf"\n +ensures \w+ {{ {claim} }}", "",
                f"{claim} stands in the `ensures` of no {what}")


EXPORT, CARRIER, CALL, EXPOSED = ", an export,", ", a carrier,", ", a call,", ""
CLOSED = "in a crate that holds calls"
WRONG = (
    *(asking(path, CARRIER) for path in ("distance_claim::most_off", "pool_claim::most_rivers",
                                         "search_claim::most_blocks", "bands_claim::most_bands",
                                         "own_river_claim::most_steps", "forecast_claim::most_horizon")),
    asking("distance_claim::most_off", CARRIER, "ghost { ⊥ }"),
    asking("yumbaqel::yumbaqel_step", EXPORT),
    asking("yumbaqel::yumbaqel_load", EXPORT, "requires nothing { ⊥ }"),
    Edit("an export that asks behind its `ensures`", source(LIBRARY), r"(fn yumbaqel_version[^{]*{[^}]*})",
         r"\1 requires { ⊥ }", f"yumbaqel_version{EXPORT} asks"),
    silent("yumbaqel::yumbaqel_version", EXPORT),
    silent("yumbaqel::yumbaqel_search", EXPORT),
    asking("otis::River::step", CALL),
    asking("search::on_pool", CALL),
    asking("boundary::rows::upstream", CALL, module="rows"),
    silent("sheet::fields::flow_in_force", CALL, "fields"),
    asking("lists::any_short", EXPOSED),
    silent("lists::any_short", EXPOSED),
    silent("river::put_sheet", EXPOSED, "main"),
    Edit("a function of the program that says nothing", source(PROGRAM, "main"), r"\Z", "\nfn idle() {}\n",
         "river::idle has no"),
    Edit("a leaf that there is not", PAGE, r"^(\| leaf \|[^\n]*\n[^\n]*\n)", r"\1| `lists::none` | nothing |\n",
         "lists::none, a leaf of the page, is none"),
    Edit("a leaf that is not on the page", PAGE, r"`rounding::parts`, ", "", "rounding::parts asks and is no leaf"),
    Edit("a leaf that asks nothing any more", source("blocks"), r"(pub fn fill\([^{]*?)\n +requires [^\n]*", r"\1",
         "blocks::fill, a leaf of the page, is none"),
    Edit("a call that there is not", PAGE, r"`search::alone`", "`search::above`", "search::above, a call of the page"),
    Edit("a page without calls", PAGE, r"^\| call \|", "| calls |", "only 0 calls"),
    Edit("a call that another crate cannot make", source("boundary"), r"^pub mod rows", "mod rows",
         "boundary::rows::upstream, a call of the page, is not exposed"),
    Edit("a module of a call's crate made public", source("sheet"), r"^mod layout", "pub mod layout", CLOSED),
    Edit("a function of a call's crate made public", source("search"), r"^fn find\b", "pub fn find", CLOSED),
    without_claim("yumbaqel", "PoolSearchTold", "export"),
    without_claim("pool_claim", "Sharing", "carrier"),
    without_claim("bands_claim", "OrderFree", "carrier"),
    without_claim("own_river_claim", "OwnRiverNear", "carrier"),
    without_claim("forecast_claim", "PoolForecastSays", "carrier"),
    without_claim("yumbaqel", "ForecastNear", "export"),
    Edit("a claim that nobody carries", f"{SPECS}Claim.antt", r"\Z", "\nabbrev pub Demand4 : Type 0\n",
         "Demand4 stands in the `ensures` of no carrier"),
    Edit("a claim in parts that nobody carries", f"{SPECS}Claim.antt", r"\Z", "\npub record Demand5 : Type 0 where\n",
         "Demand5 stands in the `ensures` of no carrier"),
    Edit("a claim under a condition", source(LIBRARY), r"{ Demand3 }", "{ ⊥ → Demand3 }", "Demand3 stands"),
    Edit("a claim in a comment", source(LIBRARY), r"(\n +)(ensures sharing { Sharing })", r"\1// \2",
         "Sharing stands"),
    Edit("another statement of a claim's name", source(LIBRARY), r"Rattle\.model\.specs\.PoolClaim",
         "Rattle.answers.specs.Answers", "Sharing stands"),
    Edit("a Display that says no text", source("terms"), r"^    ghost output = {[^\n]*\n", "", "terms::Place::fmt has no"),
    Edit("a trait's method that asks", source("terms"), r"(impl fmt::Display for Place \{.*?fn fmt[^{]*)(?=\{)",
         r"\1requires { ⊥ } ", "terms::Place::fmt asks"),
    Edit("a type exposed again with a function", "crates/bands/src/place.rt", r"\Z",
         "\n#[inline] impl Bands {\n    pub fn idle() {}\n}\n", UNREADABLE),
    Edit("a clause of no known kind", source(LIBRARY), r"(\n +)(ensures sharing { Sharing })",
         r"\1asks { ⊥ }\1\2", UNREADABLE),
)
HARMLESS = (
    asking("yumbaqel::yumbaqel_step", EXPORT, "// requires { ⊥ }"),
    asking("distance_claim::most_off", CARRIER, "/* requires\n{ ⊥ } */"),
    asking("boundary::rows::count_fault", EXPOSED, module="rows"),  # which no other crate can call
    Edit("another name of a clause", source(LIBRARY), r"ensures sharing (?={ Sharing })", "ensures the_rivers ", ""),
)


def edit_faults(files: Files, here: list[str]) -> Iterator[str]:
    """Wrong trees that are not refused for what is wrong with them, and others that are."""
    for edit in WRONG:
        new = [fault for fault in faults(edit.made(files)) if fault not in here]
        if not any(edit.named in fault for fault in new):
            yield f"not refused: {edit.what}"
    yield from (f"refused: {edit.what}" for edit in HARMLESS if faults(edit.made(files)) != here)


def main() -> int:
    files = read_files()
    found = faults(files)
    if not any(fault.startswith(UNREADABLE) for fault in found):
        print(", ".join(f"{count} {what}" for what, count in Tree(files).counts().items()))
        found += edit_faults(files, list(found))
        print(f"{len(WRONG)} wrong trees, {len(HARMLESS)} that are not wrong")
    for fault in found:
        print(f"  {fault}")
    print(f"FAILED: {len(found)} faults" if found else "passed")
    return int(bool(found))


if __name__ == "__main__":
    sys.exit(main())
