"""Prints what the gate goes through, as a Markdown table: each crate's edits and its lines.

    bash .ci/run | tee gate.log; python3 tools/gate_cost.py gate.log

Edits are those that the log says are refused.  Lines are those that are not blank: code and contracts in src/,
definitions in specs/, laws and proofs in proofs/.
"""
from __future__ import annotations

import argparse
import re
from collections import Counter
from pathlib import Path

import command

ROOT = Path(__file__).resolve().parent.parent
PROVED = re.compile(r"^rt: (\w+) (?:proved$|is kept: )", re.M)
EDIT = re.compile(r"^rt: must-fail (\w+)/\S+: refused, as it must be", re.M)


def crates() -> list[str]:
    lines = (ROOT / "crates.txt").read_text().splitlines()
    return [line.split(":")[0].split()[0] for line in lines if line and not line.startswith("#")]


def lines(crate: str, folder: str) -> int:
    """The lines of a crate's folder that are not blank."""
    files = (ROOT / "crates" / crate / folder).rglob("*")
    return sum(1 for file in files if file.suffix in (".rt", ".antt")
               for line in file.read_text().splitlines() if line.strip())


def main() -> int:
    parser = argparse.ArgumentParser(description="Prints what the gate goes through, as a Markdown table.")
    parser.add_argument("log", help="what the gate printed; - is standard input")
    log = command.given_text(parser.parse_args().log)
    proved = set(PROVED.findall(log))
    edits = Counter(EDIT.findall(log))
    missing = [crate for crate in crates() if crate not in proved]
    if missing:
        raise command.Stop(f"the log does not say that these were proved: {', '.join(missing)}")
    print("| crate | edits | code | definitions | proofs |")
    print("|---|---|---|---|---|")
    total = [0] * 4
    for crate in crates():
        row = [edits[crate], *(lines(crate, folder) for folder in ("src", "specs", "proofs"))]
        total = [a + b for a, b in zip(total, row)]
        print(f"| `{crate}` | " + " | ".join(f"{n:,}" for n in row) + " |")
    print("| all | " + " | ".join(f"{n:,}" for n in total) + " |")
    return 0


if __name__ == "__main__":
    command.run(main)
