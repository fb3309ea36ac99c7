#!/usr/bin/env python3
"""Compares what `pass --near` prints, and the key `near` of `pass --json`, with the exact quotient of the smallest setup margin
and the period, rounded to nearest with ties to even by whole numbers alone.

    tests/near.py [COUNT]      (3000 random circuits if not told; needs a built pass: ./muleminute pass --version builds it)"""
import json
import math
import random
import subprocess
import sys
import tempfile

from random_words import PASS, arrivals, some_circuit, text

LARGEST, MOST_GATES = 1000000, 16384


def nearest(n, d):
    """The binary64 number nearest to n / d, ties to even, and whether n / d is a tie. No quotient here is so near to 0 that it
    would have fewer than 53 digits."""
    if n == 0:
        return 0.0, False
    size, exponent = abs(n), 0
    # So that size / d has 53 binary digits before the point.
    while size < d << 52:
        size, exponent = size << 1, exponent - 1
    while size >= d << 53:
        d, exponent = d << 1, exponent + 1
    whole, rest = divmod(size, d)
    if 2 * rest > d or (2 * rest == d and whole % 2 == 1):
        whole += 1
    return math.copysign(math.ldexp(whole, exponent), n), 2 * rest == d


def setup_margin(gates, registers, times):
    period, _, output_late, setup, _ = times
    latest = arrivals(gates, [late + output_late for _, _, late in registers], 1, max)
    return min(period + early - latest[signal] - setup for signal, early, _ in registers)


def with_margin(margin, period):
    """A circuit with one register and no gates that has this margin, at least the period less 2,000,000 and at most the period."""
    missing = period - margin
    output = min(missing, LARGEST)
    return [], [[0, 0, 0]], [period, 0, output, missing - output, 0]


def chain(length, delay, period):
    """A circuit with one register and a path through so many gates."""
    return [[k, k, 10, 0, delay, 0, delay] for k in range(length)], [[length, 0, 0]], [period, 0, 0, 0, 0]


def almost_ties(rng, count):
    """Margins and periods whose quotient, by its 53 digits, is as near to a half as can be without being one."""
    found = []
    while len(found) < count:
        period = rng.randrange(LARGEST // 2, LARGEST) | 1
        half = rng.choice([(period - 1) // 2, (period + 1) // 2])
        digits = rng.randrange(51, 56)
        margin = half * pow(2, -digits, period) % period - rng.choice([0, 0, period])
        if margin and period << 52 <= abs(margin) << digits < period << 53:
            found.append((margin, period))
    return found


def some_circuits(rng, count):
    circuits = [some_circuit(rng) for _ in range(count)]
    pairs = [(m, p) for p in list(range(1, 40)) + [LARGEST - 1, LARGEST] for m in [p, p - 1, 1, 0, -1, -p, p // 2, p - 2 * LARGEST] if m <= p]
    for _ in range(count):
        period = rng.choice([rng.randint(1, LARGEST), 1 << rng.randrange(20), 3 ** rng.randrange(13), rng.randint(1, 100)])
        pairs.append((period - rng.randint(0, rng.choice([10, period, 2 * LARGEST])), period))
    circuits += [with_margin(*pair) for pair in pairs + almost_ties(rng, count)]
    circuits += [chain(MOST_GATES, LARGEST, period) for period in (0, 1, 3, 999983, LARGEST)]
    return circuits + [with_margin(-5, 0), with_margin(0, 0)]


def printed(path, option):
    done = subprocess.run([PASS, option, path], capture_output=True, text=True)
    assert done.stderr == "", done.stderr
    return done.stdout.splitlines(), done.returncode


def check(name, line, told, margin, period):
    """Whether a circuit's line and its object of JSON tell the right number; answers its quotient's kind."""
    if period == 0:
        assert line == name + ": no period", line
        assert "near" not in told, told
        return "none"
    want, tie = nearest(margin, period)
    front, behind = name + ": smallest setup margin ", " of the period"
    assert line.startswith(front) and line.endswith(behind), line
    for got in (float(line[len(front):-len(behind)]), float(told["near"])):
        assert got == want and math.copysign(1, got) == math.copysign(1, want), (margin, period, got, want)
    assert type(told["near"]) is float and told["margin"]["setup"] == margin
    return "tie" if tie else "below" if margin < 0 else "rest"


def main():
    count = int(sys.argv[1]) if len(sys.argv) > 1 else 3000
    circuits = some_circuits(random.Random(11), count)
    with tempfile.NamedTemporaryFile("w", suffix=".circuit") as f:
        f.write("".join(text("c%d" % i, *c) for i, c in enumerate(circuits)) + "circuit broken\nend\n")
        f.flush()
        lines, status = printed(f.name, "--near")
        objects, _ = printed(f.name, "--json")
    assert status == 1 and len(lines) == len(objects) == len(circuits) + 1
    assert lines.pop().startswith("broken: turned away by ")
    kinds = [check("c%d" % i, line, json.loads(o), setup_margin(*c), c[2][0]) for i, (c, line, o) in enumerate(zip(circuits, lines, objects))]
    # A margin has fewer than 36 digits, so a quotient with 54 is never cut in half: ties are for larger numbers.
    assert kinds.count("tie") == 0
    print("%d circuits, all parts of the period right to the last bit: %d below 0, %d without a period" % (len(circuits), kinds.count("below"), kinds.count("none")))


if __name__ == "__main__":
    main()
