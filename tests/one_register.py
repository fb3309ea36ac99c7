#!/usr/bin/env python3
"""Compares what `pass --register R` prints with an implementation of its own, for each register of random circuits; and shows
that a change outside of the fan-in cone of a register's signal leaves what is printed of it as it was.

    tests/one_register.py [COUNT]      (400 random circuits if not told; needs a built pass: ./muleminute pass --version builds it)"""
import random
import subprocess
import sys
import tempfile

from random_words import PASS, arrivals, some_circuit, steps, text


def lines(name, gates, registers, times, r):
    """What is to be printed of a register: its word and margins, and for each sum both numbers and the signals of its path."""
    period, output_early, output_late, setup, hold = times
    n = len(registers)
    latest = arrivals(gates, [late + output_late for _, _, late in registers], 1, max)
    earliest = arrivals(gates, [early + output_early for _, early, _ in registers], 0, min)
    signal, early, late = registers[r]
    sums = (latest[signal] + setup, period + early), (earliest[signal], late + hold)
    margins = sums[0][1] - sums[0][0], sums[1][0] - sums[1][1] - 1
    word = "too late" if margins[0] < 0 else "too early" if margins[1] < 0 else "met"
    said = ["%s: register %d %s, margin %d and %d" % (name, r, word, margins[0], margins[1])]
    for kind, (a, b), found in (("setup", sums[0], steps(gates, n, latest, signal, 1, lambda b, a: b > a)),
                                ("hold", sums[1], steps(gates, n, earliest, signal, 0, lambda b, a: b < a))):
        said.append("  %s %d and %d by %s" % (kind, a, b, ", ".join(map(str, [found[0]] + [step[0] for step in found[1]]))))
    return said, word == "met"


def printed(circuits, r):
    with tempfile.NamedTemporaryFile("w", suffix=".circuit") as f:
        f.write("".join(text("c%d" % i, *c) for i, c in enumerate(circuits)))
        f.flush()
        done = subprocess.run([PASS, "--register", str(r), f.name], capture_output=True, text=True)
    assert done.stderr == "" and done.returncode in (0, 1), done
    return done.stdout.splitlines(), done.returncode


def cone(gates, n, signal):
    """The signals on paths to a signal."""
    found, left = set(), [signal]
    while left:
        k = left.pop()
        if k not in found:
            found.add(k)
            left += gates[k - n][:2] if k >= n else []
    return found


def changed_outside(rng, gates, registers, times, r):
    """The circuit with other gates and registers wherever no path leads to the register's signal, and with more behind them."""
    n = len(registers)
    seen = cone(gates, n, registers[r][0])
    gates, registers = [list(g) for g in gates], [list(x) for x in registers]
    most = 40
    for k, gate in enumerate(gates):
        if n + k not in seen:
            one, two = rng.randint(0, most), rng.randint(0, most)
            gate[:] = [rng.randrange(n + k), rng.randrange(n + k), rng.randrange(16), one, one + rng.randint(0, most), two, two + rng.randint(0, most)]
        else:
            # A table is nothing that a sum sees.
            gate[2] = rng.randrange(16)
    for _ in range(rng.randint(0, 3)):
        gates.append([rng.randrange(n + len(gates)), rng.randrange(n + len(gates)), rng.randrange(16), 0, rng.randint(0, most), 0, 0])
    for q, register in enumerate(registers):
        if q != r:
            register[0] = rng.randrange(n + len(gates))
            if q not in seen:
                register[1] = rng.randint(0, 3)
                register[2] = register[1] + rng.randint(0, 9)
    return gates, registers, times


def main():
    count = int(sys.argv[1]) if len(sys.argv) > 1 else 400
    rng = random.Random(21)
    circuits = [some_circuit(rng) for _ in range(count)]
    words = {"met": 0, "too late": 0, "too early": 0}
    for r in range(4):
        some = [c for c in circuits if len(c[1]) > r]
        want = [lines("c%d" % i, *c, r) for i, c in enumerate(some)]
        got, status = printed(some, r)
        assert got == [line for said, _ in want for line in said], r
        assert status == (0 if all(met for _, met in want) else 1)
        for said, _ in want:
            words[said[0].split(" register %d " % r)[1].split(",")[0]] += 1
        others = [changed_outside(rng, *c, r) for c in some]
        assert any(a != list(b) for a, b in zip(others, some))
        assert printed(others, r)[0] == got, "a change outside of the cone of register %d" % r
    assert count < 200 or all(words.values()), words
    # A register that is not there is turned away, in its place; so is a circuit.
    two = [([], [[0, 0, 0]], [9, 0, 1, 1, 0]), ([[0, 0, 6, 9, 8, 0, 0]], [[0, 0, 0]], [9, 0, 1, 1, 0])]
    got, status = printed(two, 1)
    assert status == 1 and got[0] == "c0: turned away by 13 at 1: there is no register 1" and got[1].startswith("c1: turned away by 5 at 0: "), got
    print("%d registers as by the rules (%s), each unmoved by changes outside of its cone"
          % (sum(words.values()), ", ".join("%d %s" % (n, w) for w, n in words.items())))


if __name__ == "__main__":
    main()
