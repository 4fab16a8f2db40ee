"""Runs program `river` with an output that fails: a pipe that is full, that has room again later, or that
nobody reads any more.  After a failed write nothing more may be written, so that what arrives is a beginning of
the listing, and never its `done`.
"""
from __future__ import annotations

import fcntl
import os
import resource
import time
from collections.abc import Callable, Iterator
from dataclasses import replace
from io import FileIO
from subprocess import DEVNULL, PIPE, Popen, TimeoutExpired
from typing import NamedTuple

from model import MOST_GAUGES, MOST_SEGMENTS
from program import SECONDS, Endless, expect_success, first_difference, printed
from sheets import still_reaches, write

PAGE = 4_096                # bytes of the smallest pipe
LOOK = 0.001                # seconds between two looks at a pipe
MOST_SHARE = 0.5            # of the whole run's processor time, for a run whose output fails early


class Output(NamedTuple):
    """A pipe for the program's output, and how its other end reads."""

    name: str
    room: int                                       # bytes that the pipe holds
    filled: int                                     # bytes of these that are taken before the program starts
    waits: bool                                     # a write to the full pipe waits, else it fails
    read: Callable[[Popen, FileIO], bytes]


def long_sheet() -> bytes:
    """A listing of many buffers, with work between them: the broadest river and all gauges."""
    broad = still_reaches(MOST_SEGMENTS).with_header(M=3_976, interval=4)
    return write(replace(broad, gauges=[at * MOST_SEGMENTS // MOST_GAUGES for at in range(1, MOST_GAUGES + 1)]))


def drained(reader: FileIO) -> bytes:
    """What there is to read."""
    found = b""
    while piece := reader.read(16 * PAGE):
        found += piece
    return found


def never(child: Popen, reader: FileIO) -> bytes:
    """Nothing is read before the program has ended."""
    child.wait(SECONDS)
    return drained(reader)


def looks(child: Popen) -> Iterator[None]:
    """Again and again while the program runs, SECONDS at most."""
    end = time.monotonic() + SECONDS
    while child.poll() is None:
        if time.monotonic() > end:
            raise TimeoutExpired(child.args, SECONDS)
        time.sleep(LOOK)
        yield


def now_and_then(child: Popen, reader: FileIO) -> bytes:
    """The pipe is emptied again and again while the program runs."""
    found = b""
    for _ in looks(child):
        found += drained(reader)
    return found + drained(reader)


def until_a_page(child: Popen, reader: FileIO) -> bytes:
    """A page is read, and then nobody reads any more."""
    found = b""
    for _ in looks(child):
        found += drained(reader)
        if len(found) >= PAGE:
            break
    reader.close()
    child.wait(SECONDS)
    return found


OUTPUTS = (
    Output("a full pipe", PAGE, 0, False, never),
    Output("a full pipe, a large one", 16 * PAGE, 0, False, never),
    Output("a pipe that is filled part of the way", 2 * PAGE, PAGE, False, never),
    Output("a pipe that has room again later", PAGE, 0, False, now_and_then),
    Output("a pipe that nobody reads any more", PAGE, 0, True, until_a_page),
)


def processor_seconds() -> float:
    """Of the programs that have ended."""
    return resource.getrusage(resource.RUSAGE_CHILDREN).ru_utime


def arrived(path: str, sheet: bytes, output: Output) -> bytes:
    """What the program gets through such a pipe."""
    reading, writing = os.pipe()
    fcntl.fcntl(writing, fcntl.F_SETPIPE_SZ, output.room)
    os.write(writing, bytes(output.filled))
    os.set_blocking(writing, output.waits)
    os.set_blocking(reading, False)
    # signals as Python has them: a write to a closed pipe fails and does not end the program
    with (FileIO(reading) as reader,
          Popen([path], stdin=PIPE, stdout=writing, stderr=DEVNULL, restore_signals=False) as child):
        os.close(writing)
        child.stdin.write(sheet)
        child.stdin.close()
        try:
            found = output.read(child, reader)
        except TimeoutExpired:
            child.kill()
            raise Endless(f"no end within {SECONDS} seconds")
    expect_success(child.returncode, b"")
    return found[output.filled:]


def differences(path: str) -> Iterator[str]:
    """A line for each output where something followed a failed write, or where none failed."""
    sheet = long_sheet()
    before = processor_seconds()
    listing = printed(path, sheet)
    whole = processor_seconds() - before
    for output in OUTPUTS:
        before = processor_seconds()
        found = arrived(path, sheet, output)
        used = processor_seconds() - before
        if not found or found == listing:
            yield f"{output.name}: {len(found)} bytes of {len(listing)} arrived, which shows nothing"
        elif not listing.startswith(found):
            yield f"{output.name}: {first_difference(found, listing)}"
        elif used > MOST_SHARE * whole:
            yield f"{output.name}: {used:.2f} s of {whole:.2f} s, although nothing more is printed"
