#!/usr/bin/env python3
"""Writes the cases (stdin) and what they should give (stdout), from the rules and not from the program.

The rules of sharing are those of ../sharing_cases/cases.py, which works with exact fractions.
"""
import random
import sys
from pathlib import Path

HERE = Path(__file__).parent
sys.path.insert(0, str(HERE.parent / "sharing_cases"))
sys.dont_write_bytecode = True
from cases import answer, largest_remainder, running  # noqa: E402

INTERVALS, MOST_KW, MOST_TELEMETRY = 12, 10**7, 10**8


def weight(kw, telemetry, curtailed):
    if curtailed or kw == 0:
        return 0
    if telemetry == 0:
        return 1
    return telemetry


def expected(tags):
    if any(abs(kw) > MOST_KW or not 0 <= telemetry <= MOST_TELEMETRY for kw, telemetry, _ in tags):
        return ["out of range"]
    kws = [kw for kw, _, _ in tags]
    weights = [weight(*tag) for tag in tags]
    rows = [
        ["W", *weights],
        ["L", *answer(largest_remainder, sum(kws), weights)],
        ["R", *answer(running, sum(kws), weights)],
        ["S", *kws],
    ]
    return [" ".join(map(str, row)) for row in rows]


def hour(*tags):
    return list(tags) + [(0, 0, 0)] * (INTERVALS - len(tags))


def edges():
    yield hour()
    yield hour((300, 200, 0), (300, 0, 0))
    yield hour((300, 200, 0), (300, 0, 1))
    yield hour((300, 200, 1), (300, 0, 1))
    yield hour((0, 200, 0), (300, 0, 1))
    yield hour((5, 7, 1), (-5, 7, 1))
    yield hour((5, 7, 0), (-5, 7, 0))
    yield hour((5, 7, 0), (-5, 7, 1))
    yield hour((0, 7, 0), (0, 0, 1))
    yield hour((-40, 7, 0), (-30, 7, 0), (-20, 7, 0), (-10, 7, 1))
    yield hour((300, 200, 1), (0, 50, 0))
    yield [(1, 0, 0)] * INTERVALS
    yield [(0, 0, 0)] * (INTERVALS - 1) + [(1, 0, 0)]
    for sign in (1, -1):
        yield [(sign * MOST_KW, MOST_TELEMETRY, 0)] * INTERVALS
        yield [(sign * MOST_KW, MOST_TELEMETRY, i % 2) for i in range(INTERVALS)]
        yield hour((sign * (MOST_KW + 1), 1, 0))
        yield hour(*[(1, 1, 0)] * 11, (sign * (MOST_KW + 1), 0, 1))
        yield hour((sign * (2**63 - 1), 1, 0))
    yield hour((-(2**63), 1, 0))
    yield hour((1, MOST_TELEMETRY, 0))
    yield hour((1, MOST_TELEMETRY + 1, 0))
    yield hour((0, 2**32 - 1, 1))


def drawn(draw):
    for _ in range(120):
        most_kw = draw.choice([1, 30, 5000, MOST_KW])
        most_telemetry = draw.choice([0, 2, 900, MOST_TELEMETRY])
        low = draw.choice([0, -most_kw])
        curtailed = draw.choice([0, 0.2, 0.9])
        yield [
            (draw.randint(low, most_kw), draw.randint(0, most_telemetry), int(draw.random() < curtailed))
            for _ in range(INTERVALS)
        ]


def far_telemetry():
    """Telemetry is any number of 64 bits: below 0 it is out of range too."""
    yield hour((1, -1, 0))
    yield hour((0, -(2**63), 1))
    yield hour((1, 2**63 - 1, 0))


def main():
    cases = [*edges(), *drawn(random.Random(12)), *far_telemetry()]
    with open(HERE / "stdin", "w") as given, open(HERE / "stdout", "w") as wanted:
        for tags in cases:
            print(*("/".join(map(str, tag)) for tag in tags), file=given)
            print(*expected(tags), sep="\n", file=wanted)


if __name__ == "__main__":
    main()
