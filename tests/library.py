"""The library over its C boundary: the archive as a shared object, lent lists between guard words, the calls.

Nothing here knows what a call should answer: `test_library.py` asks the model.
"""
from __future__ import annotations

import ctypes
import os
import subprocess
from array import array
from pathlib import Path
from typing import NamedTuple, Union

from model import SET, Reach, Slot

ROOT = Path(__file__).parent.parent
INCLUDE = f"-I{ROOT / 'include'}"
STRICT = ("-pedantic", "-Wall", "-Wextra", "-Werror")
OLD = tuple(f"{name}0" for name in SET)     # the lists of a step's old side, which stand in front of the others
FIGURES = ("C", "Z", "W")           # the state's lists
WORKING = ("p", "y")
POOL_CALLS = ("pool_open", "pool_start", "pool_step", "pool_report", "pool_search", "pool_forecast", "pool_close")
CALLS = ("load", "start", "step", "report", "search", "forecast", "upstream", "rows", *POOL_CALLS)
READINGS = {**dict.fromkeys(("gauge", "flow", "dt", "dx", "most_rivers", "most_blocks", "most_bands", "most_steps",
                             "most_horizon", "version"), ctypes.c_uint32),
            "most_off": ctypes.c_uint64}        # these have a result and no answer
KINDS = {0: None, 1: "reach", 2: "segment", 3: "row"}
TYPES = {1: "B", 4: "I", 8: "Q"}    # by the bytes of an entry
GUARDS = 3                          # entries in front of a list and behind it
GUARD = 0xA5


class BuildFault(Exception):
    """The compiler did not make what the tests call."""


def compiled(out: Path, *words: str) -> str:
    """What gcc makes of these words, as a whole path."""
    run = subprocess.run(["gcc", "-o", str(out), *words], capture_output=True, text=True)
    if run.returncode:
        raise BuildFault(run.stderr[-2_000:])
    return str(out)


def shared_object(archive: str, folder: Path) -> str:
    """The whole archive as a shared object, which ctypes can load."""
    if not os.path.isfile(archive):
        raise BuildFault(f"{archive} is not an archive")
    return compiled(folder / "libyumbaqel.so", "-shared", "-Wl,--whole-archive", archive,
                    "-Wl,--no-whole-archive")


class Buffer:
    """A lent list, or a lent number as a list of one, with guard words around it."""

    def __init__(self, content: list[int], size: int = 4) -> None:
        guard = [int.from_bytes(bytes([GUARD]) * size, "little")] * GUARDS
        self.size = size
        self.length = len(content)
        self.memory = array(TYPES[size], [*guard, *content, *guard])

    @property
    def address(self) -> int:
        return self.memory.buffer_info()[0] + GUARDS * self.size

    def put(self, content: list[int]) -> None:
        """What the list is to hold before a call; the guards stay."""
        self.memory[GUARDS:GUARDS + self.length] = array(TYPES[self.size], content)

    def content(self) -> list[int]:
        return self.memory[GUARDS:GUARDS + self.length].tolist()

    def holds(self, content: list[int]) -> bool:
        """Every byte, guards too, is as it must be."""
        return self.memory.tobytes() == Buffer(content, self.size).memory.tobytes()


class Slice(NamedTuple):
    """A list as a call is told of it, which may be shorter than it is."""

    buffer: Buffer
    length: int


class U32(int):
    """A number handed by value."""


class Size(int):
    """A length or an index handed by value."""


Argument = Union[Buffer, Slice, U32, Size]


def passed(arguments: list[Argument]) -> list[object]:
    """As C takes them: a list is a pointer and a length."""
    found: list[object] = []
    for each in arguments:
        if isinstance(each, Slice):
            found += [ctypes.c_void_p(each.buffer.address), ctypes.c_size_t(each.length)]
        elif isinstance(each, Buffer):
            found.append(ctypes.c_void_p(each.address))
        elif isinstance(each, U32):
            found.append(ctypes.c_uint32(each))
        else:
            found.append(ctypes.c_size_t(each))
    return found


class Library:
    """The exported functions, by their names without the prefix."""

    def __init__(self, path: str) -> None:
        self.loaded = ctypes.CDLL(path)
        for name in CALLS:
            self.function(name).restype = None
        for name, result in READINGS.items():
            self.function(name).restype = result

    def function(self, name: str):
        return getattr(self.loaded, f"yumbaqel_{name}")

    def call(self, name: str, *arguments: Argument):
        return self.function(name)(*passed(list(arguments)))


def flat(records: list[Reach] | list[Slot]) -> list[int]:
    """Reach records, or a table, as the fields of each in turn."""
    return [figure for record in records for figure in record]
