"""What the commands have in common: reading files and texts, and an end in one line where that cannot be done."""
from __future__ import annotations

import errno
import os
import sys
from collections.abc import Callable, Iterator
from contextlib import contextmanager
from pathlib import Path
from typing import BinaryIO, NoReturn, Optional, TextIO

INTERRUPTED, CLOSED_PIPE = 130, 141         # exit statuses as a shell has them: 128 and the signal's number


class Stop(Exception):
    """A command cannot go on; the words are the one line that it ends in."""


def source(path: str) -> str:
    """What a file to read is called."""
    return "standard input" if path == "-" else path


@contextmanager
def named(name: str) -> Iterator[None]:
    """What cannot be read or written here ends the command in a line with this name; a closed pipe does not."""
    try:
        yield
    except BrokenPipeError:
        raise
    except OSError as fault:
        raise Stop(f"{name}: {fault.strerror}") from fault


def bytes_of(stream: Optional[TextIO]) -> BinaryIO:
    """A standard stream for bytes; Python has none where it was closed before the start."""
    if stream is None:
        raise OSError(errno.EBADF, os.strerror(errno.EBADF))
    return stream.buffer


def given(path: str) -> bytes:
    """The content of a file; - is standard input."""
    with named(source(path)):
        return bytes_of(sys.stdin).read() if path == "-" else Path(path).read_bytes()


def given_text(path: str) -> str:
    """The text of a file in UTF-8; a byte order mark is skipped."""
    content = given(path)
    try:
        return content.decode("utf-8-sig")
    except UnicodeDecodeError as fault:
        at = fault.start + len(content) - len(fault.object)         # fault.object begins behind the mark
        raise Stop(f"{path}: not a text in UTF-8 (byte {at})") from fault


def put(path: str, content: bytes) -> None:
    """Writes a file; - is standard output."""
    with named("standard output" if path == "-" else path):
        if path == "-":
            out = bytes_of(sys.stdout)
            out.write(content)
            out.flush()
        else:
            Path(path).write_bytes(content)


def give_up(stream: TextIO) -> None:
    """What is left in a stream that failed is not tried once more."""
    os.dup2(os.open(os.devnull, os.O_WRONLY), stream.fileno())


def say(line: str) -> None:
    """On standard error; where that fails nothing can be said."""
    if sys.stderr:                                          # print would take standard output instead
        try:
            print(line, file=sys.stderr)
        except OSError:
            give_up(sys.stderr)


def run(main: Callable[[], int]) -> NoReturn:
    """Ends with main's status; what cannot be read or written ends it in one line, a closed pipe in none."""
    for stream in filter(None, (sys.stdout, sys.stderr)):   # one that is closed is None
        stream.reconfigure(errors="replace")                # a terminal without × shows another sign
    try:
        status = main()
        if sys.stdout:
            sys.stdout.flush()
        sys.exit(status)
    except BrokenPipeError:
        status = CLOSED_PIPE
    except KeyboardInterrupt:
        status = INTERRUPTED
    except Stop as stop:
        say(str(stop))
        status = 1
    except OSError as fault:
        say(f"{fault.filename or 'standard output'}: {fault.strerror}")
        status = 1
    if sys.stdout:
        give_up(sys.stdout)
    sys.exit(status)
