#!/usr/bin/env python3
"""Writes the cases (stdin) and what they should give (stdout), from the rules and not from the program.

Shares are worked out with exact fractions; largest remainder sorts the places, running adds up.
"""
import random
from fractions import Fraction
from math import floor
from pathlib import Path

MOST_POOL, MOST_WEIGHTS, MOST_WEIGHT, MOST_TOTAL = 10**15, 64, 10**8, 2 * 10**9


def refusal(pool, weights):
    if (
        abs(pool) > MOST_POOL
        or len(weights) > MOST_WEIGHTS
        or any(w > MOST_WEIGHT for w in weights)
        or sum(weights) > MOST_TOTAL
    ):
        return 3
    if sum(weights) == 0 and pool != 0:
        return 8
    return None


def exact(pool, weights):
    total = sum(weights)
    return [Fraction(abs(pool) * w, total) if total else Fraction(0) for w in weights]


def largest_remainder(pool, weights):
    parts = exact(pool, weights)
    sizes = [floor(part) for part in parts]
    missing = abs(pool) - sum(sizes)
    for i in sorted(range(len(parts)), key=lambda i: (sizes[i] - parts[i], i))[:missing]:
        sizes[i] += 1
    return sizes


def running(pool, weights):
    # Of r = |pool| mod W alone: what goes evenly is shared evenly.
    total = sum(weights) or 1
    even, rest = divmod(abs(pool), total)
    sizes, upto, earned = [], 0, 0
    for w in weights:
        upto += w
        now = floor(Fraction(rest * upto, total))
        sizes.append(even * w + now - earned)
        earned = now
    return sizes


def answer(rule, pool, weights):
    number = refusal(pool, weights)
    if number:
        return ["refused", number]
    return [-size if pool < 0 else size for size in rule(pool, weights)]


def edges():
    full = [MOST_WEIGHT] * 20
    yield 0, []
    yield 7, []
    yield 5, [0, 0]
    yield 0, [0, 0]
    for pool in (MOST_POOL, -MOST_POOL, MOST_POOL + 1, -MOST_POOL - 1, 2**63 - 1, -(2**63)):
        yield pool, [1, 2, 4]
    yield MOST_POOL + 1, [0]
    yield 7, [MOST_WEIGHT, 1]
    yield 7, [MOST_WEIGHT + 1, 1]
    yield 7, [2**32 - 1]
    yield MOST_POOL, full
    yield MOST_POOL - 1, full + [0]
    yield MOST_POOL, full + [1]
    yield 63, [1] * 64
    yield 65, [1] * 64
    yield 63, [1] * 65
    yield 0, [0] * 65
    yield 1, [0] * 63 + [1]
    yield MOST_POOL, [31_250_000] * 64
    yield MOST_POOL - 7, [31_249_999] * 63 + [31_250_063]


def worked():
    """The examples that docs/sharing.md works by hand, but for those among the edges."""
    yield 5_000, [1, 2]
    yield 100, [1, 1, 1]
    yield -100, [1, 1, 1]
    yield 10, [3, 0, 4]


def drawn(draw):
    for _ in range(160):
        most = draw.choice([1, 3, 10, 1000, MOST_WEIGHT])
        weights = [draw.randint(0, most) for _ in range(draw.randint(1, draw.choice([3, 8, 64])))]
        if sum(weights) > MOST_TOTAL and draw.random() < 0.9:
            weights = [w // 4 for w in weights]
        size = draw.choice([3, 100, 10**6, 10**12, MOST_POOL])
        yield draw.randint(-size, size), weights


def main():
    here = Path(__file__).parent
    cases = list(edges()) + list(drawn(random.Random(6477))) + list(worked())
    with open(here / "stdin", "w") as given, open(here / "stdout", "w") as wanted:
        for pool, weights in cases:
            print(pool, *weights, file=given)
            for name, rule in (("L", largest_remainder), ("R", running)):
                print(name, *answer(rule, pool, weights), file=wanted)


if __name__ == "__main__":
    main()
