"""Proves and builds crates with rt and shows where it stands.

    python3 tools/prove.py river        program river and all crates that it rests on
    python3 tools/prove.py              every crate

A library is built by `rt lib`, and a program by `rt run`, which runs it too, here on an empty input.  A line comes for
each crate when rt is through with it.  Meanwhile a terminal shows the time and the crate that rt is at, in a line
renewed every second; elsewhere such a line is printed every 20 seconds.  All that rt prints is kept in prove.log.  The
exit status is rt's at the first crate that is not proved.
"""
from __future__ import annotations

import argparse
import difflib
import os
import queue
import shutil
import signal
import subprocess
import sys
import threading
import time
from collections.abc import Callable
from pathlib import Path
from typing import BinaryIO, NamedTuple, Optional, TextIO

import command

RENEWED, REPEATED = 1, 20           # seconds after which it says again where it stands: at a terminal, elsewhere
TAIL = 20                           # lines shown of what rt printed of a crate that is not proved
NO_RT, BAD_NAME = 127, 2            # exit statuses, as the shell and rt have them
LOG = "prove.log"
RENEW = "\r\x1b[K"                  # back to the beginning of a terminal's line, which is emptied


# The crates


def repository() -> Path:
    """The folder with crates.txt at or above the one that the command is run in, as for rt."""
    here = Path.cwd()
    for folder in (here, *here.parents):
        if (folder / "crates.txt").is_file():
            return folder
    raise command.Stop(f"no crates.txt in {here} or above it")


def read_crates(text: str) -> dict[str, list[str]]:
    """The crates of crates.txt, each with the crates that it names; libraries of the kit are left out."""
    lines = [line.split("#")[0].partition(":") for line in text.splitlines()]
    named = {name.split()[0]: rest.split() for name, _, rest in lines if name.strip()}     # `staticlib` may follow
    return {name: [each for each in rest if each in named] for name, rest in named.items()}


def rested_on(crates: dict[str, list[str]], names: list[str]) -> set[str]:
    """The named crates and all that they rest on."""
    found: set[str] = set()
    left = list(names)
    while left:
        name = left.pop()
        if name not in found:
            found.add(name)
            left += crates[name]
    return found


def in_order(crates: dict[str, list[str]], names: set[str]) -> list[str]:
    """The crates, each behind those that it names."""
    found: list[str] = []

    def put(name: str) -> None:
        if name in names and name not in found:
            for each in crates[name]:
                put(each)
            found.append(name)
    for name in crates:
        put(name)
    return found


# What is shown


def minutes(seconds: float) -> str:
    whole = int(seconds)
    return f"{whole} s" if whole < 60 else f"{whole // 60} min {whole % 60} s"


class Progress:
    """Shows which crates rt is through with, and which it is at."""

    def __init__(self, count: int, out: TextIO, terminal: bool, clock: Callable[[], float] = time.monotonic) -> None:
        self.count, self.out, self.terminal, self.clock = count, out, terminal, clock
        self.begun = self.shown = self.crate_begun = clock()
        self.done, self.at = 0, ""

    def elapsed(self) -> str:
        return minutes(self.clock() - self.begun)

    def line(self, words: str) -> None:
        print(f"{RENEW}{words}" if self.terminal else words, file=self.out, flush=True)
        self.shown = self.clock()

    def stand(self) -> None:
        """Where it stands: at a terminal in a line that is renewed, elsewhere in one more line now and then."""
        if self.clock() - self.shown < (RENEWED if self.terminal else REPEATED):
            return
        words = f"{self.elapsed()}: {self.done} of {self.count} crates done{self.at and f', at {self.at}'}"
        if self.terminal:
            width = shutil.get_terminal_size().columns - 1
            print(f"{RENEW}{words[:width]}", end="", file=self.out, flush=True)
            self.shown = self.clock()
        else:
            self.line(words)

    def begin(self, name: str) -> None:
        self.at, self.crate_begun = name, self.clock()

    def seconds(self) -> str:
        """How long rt has been at its crate."""
        return f"{int(self.clock() - self.crate_begun)} s"

    def end(self, name: str, report: str) -> None:
        self.done, self.at = self.done + 1, ""
        self.line(f"{self.done:{len(str(self.count))}} of {self.count}  {name} {report}, {self.elapsed()} so far")


# The run


class Ran(NamedTuple):
    """What rt made of a crate: its exit status, and what it printed."""

    status: int
    lines: list[str]

    def has(self, begin: str) -> bool:
        return any(line.startswith(begin) for line in self.lines)

    @property
    def built(self) -> bool:
        """A program that is run is built, whatever it makes of an empty input."""
        return self.status == 0 or self.has("rt: running out/")

    def report(self, seconds: str) -> str:
        if not self.built:
            return f"NOT PROVED (exit {self.status}, {seconds})"
        return f"proved ({seconds})" if self.has("logic=proved ") else "is up to date"


def pump(printed: BinaryIO, lines: queue.Queue[Optional[bytes]]) -> None:
    for line in printed:
        lines.put(line)
    lines.put(None)


def follow(rt: subprocess.Popen, log: BinaryIO, progress: Progress) -> list[str]:
    """Takes what rt prints until it ends; between its lines, shows where it stands."""
    lines: queue.Queue[Optional[bytes]] = queue.Queue()
    threading.Thread(target=pump, args=(rt.stdout, lines), daemon=True).start()
    found = []
    while True:
        try:
            line = lines.get(timeout=RENEWED)
        except queue.Empty:
            line = b""
        progress.stand()
        if line is None:
            return found
        if line:
            log.write(line)
            log.flush()
            found.append(line.decode(errors="replace").rstrip("\n"))


def build(folder: Path, log: BinaryIO, progress: Progress) -> Ran:
    """Has rt prove and build the crate in a folder."""
    word = "run" if (folder / "src" / "main.rt").is_file() else "lib"
    rt = subprocess.Popen(["rt", word], cwd=folder, stdin=subprocess.DEVNULL, stdout=subprocess.PIPE,
                          stderr=subprocess.STDOUT, process_group=0)
    try:
        lines = follow(rt, log, progress)
        status = rt.wait()
    finally:
        if rt.poll() is None:           # stopped early: the provers that rt has started are in its group
            os.killpg(rt.pid, signal.SIGTERM)
    return Ran(status if status >= 0 else 128 - status, lines)


def prove(root: Path, crates: dict[str, list[str]], names: list[str], progress: Progress) -> dict[str, Ran]:
    """Builds the crates in this order, but for those above one that is not proved; what rt made of these."""
    failed: dict[str, Ran] = {}
    left: set[str] = set()
    with (root / LOG).open("wb") as log:
        for name in names:
            below = next((each for each in crates[name] if each in left), None)
            progress.begin(name)
            if below:
                left.add(name)
                progress.end(name, f"is not tried, since {below} is not proved")
                continue
            ran = build(root / "crates" / name, log, progress)
            progress.end(name, ran.report(progress.seconds()))
            if not ran.built:
                left.add(name)
                failed[name] = ran
    return failed


def arguments() -> argparse.Namespace:
    parser = argparse.ArgumentParser(description="Proves and builds crates with rt and shows where it stands.")
    parser.add_argument("crates", nargs="*",
                        help="the crates to prove, with all that they rest on; every crate if none is named")
    return parser.parse_args()


def main() -> int:
    named = arguments().crates
    root = repository()
    crates = read_crates((root / "crates.txt").read_text(encoding="utf-8"))
    for name in named:
        if name not in crates:
            near = difflib.get_close_matches(name, crates, 1)
            command.say(f"crates.txt has no crate '{name}'" + (f"; did you mean '{near[0]}'?" if near else ""))
            return BAD_NAME
    if shutil.which("rt") is None:
        command.say("rt, the Rattle toolchain, is not installed: README.md says which version is needed")
        return NO_RT
    for number in (signal.SIGHUP, signal.SIGTERM):
        signal.signal(number, lambda number, _: sys.exit(128 + number))
    terminal = sys.stdout is not None and sys.stdout.isatty() and os.environ.get("TERM", "dumb") != "dumb"
    names = in_order(crates, rested_on(crates, named or list(crates)))
    progress = Progress(len(names), sys.stdout, terminal)
    progress.line(f"{len(names)} crates, each proved if it has changed since it last was; "
                  f"{LOG} has all that rt prints")
    try:
        failed = prove(root, crates, names, progress)
    except KeyboardInterrupt:
        progress.line(f"stopped, after {progress.elapsed()}; a crate that is proved is not proved again")
        return command.INTERRUPTED
    if not failed:
        progress.line(f"all proved, after {progress.elapsed()}")
        return 0
    progress.line(f"not proved, after {progress.elapsed()}; the end of what rt printed of it:")
    for ran in failed.values():
        for line in ran.lines[-TAIL:]:
            progress.line(f"  {line}")
    return next(iter(failed.values())).status


if __name__ == "__main__":
    command.run(main)
