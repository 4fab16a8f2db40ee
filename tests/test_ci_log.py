"""The log of `rt ci` says that all is well, and that no must-fail edit is bad.

    python3 tests/test_ci_log.py LOG

`rt ci` passes where an edit is bad, that is, where no prover has tried it, and says so only in its line `rt: ok`, by
`, N bad`.  So this reads that line.  Before that, made-up logs are read, some of which must be refused.
"""
from __future__ import annotations

import re
import sys
from collections.abc import Iterator
from pathlib import Path

KEPT = "done in this run: 3 of the 9 proofs (of crates and of their tests) and 2 of the 7 must-fail edits; the others are kept"
NEW = "every proof and must-fail edit was done in this run"
OK = "rt: ok; handles allowed: none"
RIGHT = {
    "edits": f"rt: a proved\n{OK}; must-fail edits: 7 refused; {NEW}\n9 passed, 0 failed\n",
    "kept ones": f"rt: a is kept\n{OK}; must-fail edits: 7 refused; {KEPT}\n9 passed, 0 failed\n",
    "no edits": f"{OK}; {NEW}\n2 passed, 0 failed\n",
    "a limit": f"{OK}; must-fail edits: 7 refused, 1 of them only by a limit; {NEW}\n9 passed, 0 failed\n",
    "what a program says": f"rt: a: 3 of 4, 2 bad\n{OK}; must-fail edits: 7 refused; {NEW}\n9 passed, 0 failed\n",
}
WRONG = {
    "a bad edit": f"{OK}; must-fail edits: 6 refused, 1 bad; {NEW}\n9 passed, 0 failed\n",
    "twelve": f"{OK}; must-fail edits: 6 refused, 12 bad; {KEPT}\n9 passed, 0 failed\n",
    "one beside a limit": f"{OK}; must-fail edits: 6 refused, 1 of them only by a limit, 1 bad; {NEW}\n9 passed, 0 failed\n",
    "no edit but bad ones": f"{OK}; must-fail edits: 0 refused, 7 bad; {NEW}\n2 passed, 0 failed\n",
    "no line": "rt: a proved\n9 passed, 0 failed\n",
    "two lines": f"{OK}; {NEW}\n{OK}; {NEW}\n9 passed, 0 failed\n",
    "some crates alone": "rt: a and the crates below passed. This is not the gate\n3 passed, 0 failed (a and the crates below)\n",
    "a failure": f"rt: FAILED: a\n{OK}; {NEW}\n8 passed, 1 failed\n",
    "no count": f"9 passed, 0 failed\n{OK}; {NEW}\n",
    "nothing": "",
}


def faults(log: str) -> Iterator[str]:
    well = re.findall(r"^rt: ok\b.*", log, re.M)
    if len(well) != 1:
        yield f"{len(well)} lines `rt: ok`, not 1"
    yield from (f"bad must-fail edits: {line}" for line in well if re.search(r", \d+ bad\b", line))
    last = (log.splitlines() or [""])[-1]
    if not re.fullmatch(r"\d+ passed, 0 failed", last):
        yield f"its last line is {last!r}"


def main() -> int:
    found = [f"not refused: {what}" for what, log in WRONG.items() if not list(faults(log))]
    found += [f"refused: {what}" for what, log in RIGHT.items() if list(faults(log))]
    found += faults(Path(sys.argv[1]).read_text(errors="replace"))
    print(f"{len(WRONG)} wrong logs, {len(RIGHT)} that are not wrong, and that of this run")
    for each in found:
        print(f"  {each}")
    print("FAILED" if found else "passed")
    return int(bool(found))


if __name__ == "__main__":
    sys.exit(main())
