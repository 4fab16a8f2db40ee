"""The library's exported functions as its source has them: how C declares them, and a recorder in front of them."""
from __future__ import annotations

import re
from typing import NamedTuple

from library import ROOT

SOURCE = ROOT / "crates" / "yumbaqel" / "src" / "lib.rt"


class Parameter(NamedTuple):
    name: str
    type: str


class Signature(NamedTuple):
    """An exported function: its parameters in Rattle's types, and its result in C's."""

    name: str
    parameters: list[Parameter]
    result: str


NUMBERS = {"u32": "uint32_t ", "usize": "size_t ", "&mut u32": "uint32_t *", "&mut u64": "uint64_t *",
           "&mut [u32; 9]": "struct yumbaqel_loaded *", "&mut Table": "struct yumbaqel_table *",
           "&Table": "const struct yumbaqel_table *"}
RESULTS = {"": "void", "u32": "uint32_t", "u64": "uint64_t"}
SLICES = {"&[u8]": "const uint8_t *", "&[u32]": "const uint32_t *", "&mut [u32]": "uint32_t *",
          "&mut [u64]": "uint64_t *", "&mut [Reach]": "struct yumbaqel_reach *"}


def signatures() -> dict[str, Signature]:
    found = {}
    # lists that a call gathers are lent for one lifetime, which C does not see
    source = SOURCE.read_text().replace("<'a>", "").replace("&'a ", "&")
    for each in re.finditer(r'extern "C" fn (\w+)\(([^)]*)\)(?: -> (\w+))?', source):
        parameters = [Parameter(*part) for part in re.findall(r"(\w+): ([^,]+?),?\s*(?=\w+:|$)", each[2].strip())]
        found[each[1]] = Signature(each[1], parameters, RESULTS[each[3] or ""])
    return found


def c_parameters(signature: Signature) -> list[str]:
    """As C takes them: a list is a pointer and a length."""
    found = []
    for name, kind in signature.parameters:
        if kind in SLICES:
            found += [f"{SLICES[kind]}{name}", f"size_t {name}_length"]
        else:
            found.append(f"{NUMBERS[kind]}{name}")
    return found


def declaration(signature: Signature) -> str:
    return f"{signature.result} {signature.name}({', '.join(c_parameters(signature)) or 'void'})"


def recorded(signature: Signature) -> list[str]:
    """What a recorder prints of a call: the lengths, and the figures that are handed by value."""
    return [f"{name}_length" if kind in SLICES else name for name, kind in signature.parameters
            if kind in SLICES or kind in ("u32", "usize")]


MARKS = (101, 102, 103)             # number, kind and place of a recorder that answers by itself
RESULT_MARK = 104


def recorder_source(library: dict[str, Signature]) -> str:
    """A library that prints what it is handed before it calls the real one, or answers with marks."""
    lines = ["#define _GNU_SOURCE", "#include <dlfcn.h>", "#include <stddef.h>", "#include <stdint.h>",
             "#include <stdio.h>", "struct yumbaqel_loaded; struct yumbaqel_reach; struct yumbaqel_table;",
             "int recorder_marks;"]
    for signature in library.values():
        parameters = c_parameters(signature)
        answer = f"return {RESULT_MARK};"
        if signature.result == "void":
            answer = "*number = {}, *kind = {}, *place = {}; return;".format(*MARKS)
        lines += [f"{declaration(signature)} {{",
                  f"    static {signature.result} (*real)({', '.join(parameters) or 'void'});",
                  f'    *(void **)&real = dlsym(RTLD_NEXT, "{signature.name}");',
                  f'    printf(" call {signature.name}");',
                  *(f'    printf(" {name} %llu", (unsigned long long){name});' for name in recorded(signature)),
                  '    printf("\\n");',
                  f"    if (recorder_marks) {{ {answer} }}",
                  f"    {'' if signature.result == 'void' else 'return '}real("
                  f"{', '.join(re.search(r'[a-z0-9_]+$', each)[0] for each in parameters)});", "}"]
    return "\n".join(lines) + "\n"
