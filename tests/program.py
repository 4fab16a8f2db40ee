"""Runs program `river`: a sheet on standard input, its listing back."""
from __future__ import annotations

import os
import time
from subprocess import PIPE, Popen, TimeoutExpired

SECONDS = 60                # a program that takes longer over one sheet is stopped
PAUSE = 0.02                # seconds between the pieces of a sheet


class ProgramFault(Exception):
    """The program did not run to its end."""


class Endless(ProgramFault):
    """The program was stopped after its time."""


def program_path(path: str) -> str:
    """The program's whole path; it must be there and be a program."""
    if not (os.path.isfile(path) and os.access(path, os.X_OK)):
        raise ProgramFault(f"{path} is not a program")
    return os.path.abspath(path)


def pieces(sheet: bytes, pauses: tuple[int, ...]) -> list[bytes]:
    ends = [*pauses, len(sheet)]
    return [sheet[begin:end] for begin, end in zip([0, *pauses], ends)]


def expect_success(status: int, complaint: bytes) -> None:
    """A program that ended by a signal or with another exit status than 0 is at fault."""
    if status != 0:
        end = f"signal {-status}" if status < 0 else f"exit status {status}"
        raise ProgramFault(f"ended by {end} {complaint[-300:]!r}")


def printed(path: str, sheet: bytes, pauses: tuple[int, ...] = ()) -> bytes:
    """What the program prints for a sheet, delivered whole or with pauses."""
    with Popen([path], stdin=PIPE, stdout=PIPE, stderr=PIPE) as child:
        *early, rest = pieces(sheet, pauses)
        try:
            for piece in early:
                child.stdin.write(piece)
                child.stdin.flush()
                time.sleep(PAUSE)
        except BrokenPipeError:
            rest = b""
        try:
            listing, complaint = child.communicate(rest, timeout=SECONDS)
        except TimeoutExpired:
            child.kill()
            raise Endless(f"no end within {SECONDS} seconds")
    expect_success(child.returncode, complaint)
    return listing


def first_difference(found: bytes, wanted: bytes) -> str:
    """The first line that differs, in words."""
    found_lines, wanted_lines = found.splitlines(keepends=True), wanted.splitlines(keepends=True)
    for at, (one, other) in enumerate(zip(found_lines, wanted_lines), 1):
        if one != other:
            return f"line {at} is {one!r}, not {other!r}"
    return f"{len(found_lines)} lines, not {len(wanted_lines)}; the last is {b''.join(found_lines[-1:])!r}"
