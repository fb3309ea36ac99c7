#!/usr/bin/env python3
"""Compares the words of `pass`, the shortest periods and the paths with those of an implementation of its own, on random circuits.

    tests/random_words.py [COUNT]      (6000 circuits if not told; needs a built pass: ./muleminute pass --version builds it)"""
import os
import random
import subprocess
import sys
import tempfile

TOP = os.path.join(os.path.dirname(os.path.abspath(__file__)), "..")
PASS = os.path.join(TOP, "crates", "pass", "out", "pass")


def arrivals(gates, sources, bound, choose):
    """The time of every signal; bound is 0 for least delays and 1 for greatest ones."""
    times = list(sources)
    for gate in gates:
        times.append(choose(times[gate[0]] + gate[3 + bound], times[gate[1]] + gate[5 + bound]))
    return times


def path(gates, n, times, signal, bound, better):
    """The gates on the first path that has the signal's time."""
    steps = []
    while signal >= n:
        gate = gates[signal - n]
        one, two = times[gate[0]] + gate[3 + bound], times[gate[1]] + gate[5 + bound]
        steps.append(str(signal))
        signal = gate[1] if better(two, one) else gate[0]
    return " by " + ", ".join(reversed(steps)) if steps else ""


def word(gates, registers, times):
    period, output_early, output_late, setup, hold = times
    n = len(registers)
    latest = arrivals(gates, [late + output_late for _, _, late in registers], 1, max)
    earliest = arrivals(gates, [early + output_early for _, early, _ in registers], 0, min)
    for r, (signal, early, _) in enumerate(registers):
        if latest[signal] + setup > period + early:
            by = path(gates, n, latest, signal, 1, lambda b, a: b > a)
            return "too late at %d%s: %d and %d" % (r, by, latest[signal] + setup, period + early)
    for r, (signal, _, late) in enumerate(registers):
        if earliest[signal] <= late + hold:
            by = path(gates, n, earliest, signal, 0, lambda b, a: b < a)
            return "too early at %d%s: %d and %d" % (r, by, earliest[signal], late + hold)
    setup_margin = min(period + early - latest[signal] - setup for signal, early, _ in registers)
    hold_margin = min(earliest[signal] - 1 - late - hold for signal, _, late in registers)
    return "passed, margin %d and %d" % (setup_margin, hold_margin)


def shortest_period(gates, registers, times):
    """The first period, counted up from 0, with which no input is too late."""
    period = 0
    while word(gates, registers, [period] + times[1:]).startswith("too late"):
        period += 1
    return period


def period_words(circuit):
    p = shortest_period(*circuit)
    return "shortest period %d" % p + (", %d.%03d MHz" % divmod(10 ** 9 // p, 1000) if p else "")


TABLES = "never nor first-only not-second second-only not-first xor nand and xnor first first-or-not-second second second-or-not-first or always".split()


def steps(gates, n, times, signal, bound, better):
    """The register where the first path begins that has the signal's time, and for each gate its signal and its input."""
    found = []
    while signal >= n:
        gate = gates[signal - n]
        one, two = times[gate[0]] + gate[3 + bound], times[gate[1]] + gate[5 + bound]
        second = better(two, one)
        found.append((signal, 2 if second else 1))
        signal = gate[1] if second else gate[0]
    return signal, found[::-1]


def report(gates, registers, times, late, r):
    """The lines on a register's path, its times summed up step by step."""
    period, output_early, output_late, setup, hold = times
    signal, early, last = registers[r]
    bound, choose, kind = (1, max, "greatest") if late else (0, min, "least")
    sources = [b + output_late if late else a + output_early for _, a, b in registers]
    source, found = steps(gates, len(registers), arrivals(gates, sources, bound, choose), signal, bound, (lambda b, a: b > a) if late else (lambda b, a: b < a))
    clock, output = (registers[source][2], output_late) if late else (registers[source][1], output_early)
    required = period + early - setup if late else last + hold + 1
    if late:
        lines = ["  register %d, setup: latest time, at most period %d + early %d - setup %d" % (r, period, early, setup)]
    else:
        lines = ["  register %d, hold: earliest time, at least late %d + hold %d + 1" % (r, last, hold)]
    rows = [("signal", "table", "input", kind, "time"), (source, "clock", "", clock, clock), (source, "output", "", output, clock + output)]
    at = clock + output
    for gate_signal, way in found:
        gate = gates[gate_signal - len(registers)]
        delay = gate[(3 if way == 1 else 5) + bound]
        at += delay
        rows.append((gate_signal, TABLES[gate[2]], way, delay, at))
    lines += ["    %6s  %-19s  %5s  %8s  %12s" % row for row in rows]
    margin = required - at if late else at - required
    return lines + ["    %-44s  %12d" % row for row in (("arrival", at), ("required", required), ("margin", margin))] + [""]


def paths_words(circuit):
    """The lines behind a circuit's word: for the register that it names, then for the smallest margin of each kind."""
    gates, registers, times = circuit
    said = word(*circuit)
    setups, holds = ([int(report(*circuit, late, r)[-2].split()[1]) for r in range(len(registers))] for late in (True, False))
    ends = [(True, setups.index(min(setups))), (False, holds.index(min(holds)))]
    if not said.startswith("passed"):
        named = (said.startswith("too late"), int(said.split(":")[0].split()[3]))
        ends = [named] + [end for end in ends if end != named]
    return [line for late, r in ends for line in report(*circuit, late, r)]


def some_circuit(rng):
    n, m, most = rng.randint(1, 4), rng.randint(0, 12), rng.choice([1, 3, 9, 30])
    gates = []
    for k in range(m):
        one, two = rng.randint(0, most), rng.randint(0, most)
        gates.append([rng.randrange(n + k), rng.randrange(n + k), rng.randrange(16), one, one + rng.randint(0, most), two, two + rng.randint(0, most)])
    registers = []
    for _ in range(n):
        early = rng.randint(0, 2)
        registers.append([rng.randrange(n + m), early, early + rng.randint(0, 2)])
    output = rng.randint(0, 6)
    times = [rng.randint(0, 12 * most + 20), output, output + rng.randint(0, 3), rng.randint(0, 3), rng.randint(0, 2)]
    return gates, registers, times


def text(name, gates, registers, times):
    rows = [["circuit", name], ["times"] + times] + [["register"] + r for r in registers] + [["gate"] + g for g in gates] + [["end"]]
    return "".join(" ".join(map(str, row)) + "\n" for row in rows)


def differ(circuits, expected, *options):
    """Whether what is printed of the circuits, which are c0, c1 and so on, is not as expected; this is told."""
    with tempfile.NamedTemporaryFile("w", suffix=".circuit") as f:
        f.write("".join(text("c%d" % i, *c) for i, c in enumerate(circuits)))
        f.flush()
        answers = subprocess.run([PASS, *options, f.name], capture_output=True, text=True).stdout.splitlines()
    for got, want in zip(answers, expected):
        if got != want:
            print("got  %s\nwant %s" % (got, want))
            return True
    if len(answers) != len(expected):
        print("%d lines and not %d" % (len(answers), len(expected)))
        return True
    return False


def main():
    count = int(sys.argv[1]) if len(sys.argv) > 1 else 6000
    rng = random.Random(5)
    circuits = [some_circuit(rng) for _ in range(count)]
    expected = ["c%d: %s" % (i, word(*c)) for i, c in enumerate(circuits)]
    if differ(circuits, expected):
        return 1
    few = circuits[:count // 10]
    if differ(few, ["c%d: %s" % (i, period_words(c)) for i, c in enumerate(few)], "--period"):
        return 1
    if differ(few, [line for i, c in enumerate(few) for line in ["c%d: %s" % (i, word(*c))] + paths_words(c)], "--paths"):
        return 1
    kinds = [sum(k in w for w in expected) for k in (": passed", ": too late", ": too early")]
    print("%d circuits, all words the same: %d passed, %d too late, %d too early; %d shortest periods and paths the same" % ((count,) + tuple(kinds) + (len(few),)))
    return 0


if __name__ == "__main__":
    sys.exit(main())
