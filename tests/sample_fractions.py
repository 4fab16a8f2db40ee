"""The 100,000 fractions of program `samples` (crates/samples/src/main.rt), drawn once more, and the figures that the model gives them.

    python3 tests/sample_fractions.py      prints what the program must print
"""
from __future__ import annotations

from collections.abc import Iterator
from pathlib import Path

import model

CRATE = Path(__file__).resolve().parent.parent / "crates" / "samples"
COUNT = 100_000
EVERY = 251                         # of so many fractions one is printed
SEED = 88_172_645_463_325_252
WORD = 1 << 64
ABOVE = model.ONE_WHOLE + 1         # stands for all that is more than one whole
HALF_PARTS = 2 * model.ONE_WHOLE


def stirred(x: int) -> int:
    """Marsaglia's xorshift."""
    x ^= (x << 13) % WORD
    x ^= x >> 7
    return x ^ (x << 17) % WORD


def sized(bits: int, x: int) -> int:
    """A number of so many bits."""
    least = 1 << bits >> 1
    return least + x % least if bits else 0


def denominator(kind: int, k: int, x: int) -> int:
    if kind == 0:
        return sized(k % 64 + 1, x)
    if kind == 1:
        return (2 << k % 63) - 1 + x % 3
    if kind == 2:
        return HALF_PARTS * sized(k % 33 + 1, x)
    if kind == 4:
        return (WORD >> 1) + 1 + x % ((WORD >> 1) - 1) if k % 50 else WORD - 1
    area, dx = 1 + x % 1_000_000, 1 + x // 1_000_000 % 10_000
    return (4 * area * dx * dx, 200_000 * area, 2_000_000_000 * area, 2_000_000_000_000_000, 2_000_000_000)[k % 5]


def beside(n: int, x: int) -> int:
    """n, or what stands beside it within 64 bits."""
    other = n + (-1, 1, 0)[x % 3]
    return other if 0 <= other < WORD else n


def numerator(kind: int, k: int, d: int, x: int) -> int:
    if kind == 0:
        return sized(k % 66, x) if k % 66 <= 64 else WORD - 1
    if kind == 1:
        return x % d
    if kind == 2:
        return beside((2 * (x // 3 % model.ONE_WHOLE) + 1) * d // HALF_PARTS, x)
    return beside((d + d // HALF_PARTS) % WORD, x)


def fractions() -> Iterator[tuple[int, int]]:
    drawn = SEED
    for at in range(COUNT):
        drawn = stirred(drawn)
        d = denominator(at % 5, at // 20, drawn)
        drawn = stirred(drawn)
        yield numerator(at // 5 % 4, at // 20 // 64, d, drawn), d


def listing() -> str:
    lines, digest = [], SEED
    for at, (n, d) in enumerate(fractions()):
        figure = min(model.parts(n, d), ABOVE)
        for word in (n, d, figure):
            digest = stirred((digest + word) % WORD)
        if at % EVERY == 0:
            lines.append(f"{at} {n} {d} {figure} {digest:016x}")
    return "\n".join([*lines, f"{COUNT} fractions, digest {digest:016x}", ""])


if __name__ == "__main__":
    print(listing(), end="")
