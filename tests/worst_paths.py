#!/usr/bin/env python3
"""Compares what `pass --worst` lists, in words, step by step and as JSON, with all paths of random circuits, sorted.

    tests/worst_paths.py [COUNT]      (600 circuits if not told; needs a built pass: ./muleminute pass --version builds it)

Each circuit has up to 12 gates, so all its paths can be enumerated. Besides: more paths asked for than there are, numbers of paths that
are turned away, and a chain of 5,000 gates with both inputs at the same signal, which has 2 ^ 5000 paths."""
import json
import random
import subprocess
import sys
import tempfile
import time

from random_words import PASS, TABLES, differ, some_circuit, text, word


def dense_circuit(rng):
    """A circuit whose gates take one of the last signals before them, so that it has many paths, and many of the same slack."""
    gates, registers, times = some_circuit(rng)
    n, m = len(registers), rng.randint(6, 12)
    gates = []
    for k in range(m):
        one, two = rng.randint(0, 2), rng.randint(0, 2)
        inputs = [rng.randrange(max(0, n + k - 3), n + k) for _ in range(2)]
        gates.append(inputs + [rng.randrange(16), one, one + rng.randint(0, 2), two, two + rng.randint(0, 2)])
    registers = [[rng.randrange(max(0, n + m - 4), n + m)] + row[1:] for row in registers]
    return gates, registers, times


def paths(circuit, late):
    """All paths to registers, each with its slack, register, pins from the end, arrival and required time, source, and signals."""
    gates, registers, (period, output_early, output_late, setup, hold) = circuit
    n = len(registers)
    bound = 1 if late else 0

    def to(signal):
        """The paths to a signal: the pins from the end (0 for the first input), and the signals from the end."""
        if signal < n:
            return [((), (signal,))]
        gate = gates[signal - n]
        return [((pin,) + pins, (signal,) + signals) for pin in (0, 1) for pins, signals in to(gate[pin])]

    found = []
    for r, (signal, early, last) in enumerate(registers):
        required = period + early - setup if late else last + hold + 1
        for pins, signals in to(signal):
            source = registers[signals[-1]]
            arrival = source[2] + output_late if late else source[1] + output_early
            for pin, at in zip(pins, signals):
                arrival += gates[at - n][(3, 5)[pin] + bound]
            slack = required - arrival if late else arrival - required
            found.append((slack, r, pins, arrival, required, signals[::-1]))
    return sorted(found)


def figures(circuit, late):
    """The line of figures, and the empty one behind it."""
    worst = {}
    for slack, r, *_ in paths(circuit, late):
        worst.setdefault(r, slack)
    below = [slack for slack in worst.values() if slack < 0]
    return ["  negative slack at %d of %d registers, worst slack %d, total negative slack %d" % (len(below), len(worst), min(worst.values()), sum(below)), ""]


def table(circuit, late, k):
    """The lines of the table of the k worst paths."""
    lines = ["  worst paths, " + ("setup" if late else "hold"), "  rank         slack  register       arrival      required  path"]
    for rank, (slack, r, _, arrival, required, signals) in enumerate(paths(circuit, late)[:k], 1):
        lines.append("  %4d  %12d  %8d  %12d  %12d  %s" % (rank, slack, r, arrival, required, ", ".join(map(str, signals))))
    return lines + figures(circuit, late)


def steps(circuit, late, k):
    """The lines of the k worst paths, step by step."""
    gates, registers, (period, output_early, output_late, setup, hold) = circuit
    n = len(registers)
    lines = []
    for rank, (slack, r, pins, arrival, required, signals) in enumerate(paths(circuit, late)[:k], 1):
        early, last = registers[r][1:]
        source = registers[signals[0]]
        clock, output = (source[2], output_late) if late else (source[1], output_early)
        lines.append("  path %d" % rank)
        if late:
            lines.append("  register %d, setup: latest time, at most period %d + early %d - setup %d" % (r, period, early, setup))
        else:
            lines.append("  register %d, hold: earliest time, at least late %d + hold %d + 1" % (r, last, hold))
        at = clock + output
        rows = [("signal", "table", "input", "greatest" if late else "least", "time"), (signals[0], "clock", "", clock, clock), (signals[0], "output", "", output, at)]
        for signal, pin in zip(signals[1:], pins[::-1]):
            gate = gates[signal - n]
            delay = gate[(3, 5)[pin] + (1 if late else 0)]
            at += delay
            rows.append((signal, TABLES[gate[2]], pin + 1, delay, at))
        lines += ["    %6s  %-19s  %5s  %8s  %12s" % row for row in rows]
        lines += ["    %-8s %49d" % row for row in (("arrival", arrival), ("required", required), ("slack", slack))] + [""]
    return lines


def objects(circuit, late, k):
    return [{"register": r, "slack": slack, "arrival": arrival, "required": required, "path": list(signals)} for slack, r, _, arrival, required, signals in paths(circuit, late)[:k]]


def differ_json(circuits, late, k):
    with tempfile.NamedTemporaryFile("w", suffix=".circuit") as f:
        f.write("".join(text("c%d" % i, *c) for i, c in enumerate(circuits)))
        f.flush()
        out = subprocess.run([PASS, "--json", "--worst", str(k), *([] if late else ["--early"]), f.name], capture_output=True, text=True).stdout
        plain = subprocess.run([PASS, "--json", f.name], capture_output=True, text=True).stdout
    got = [json.loads(line) for line in out.splitlines()]
    want = [dict(json.loads(line), worst=objects(c, late, k)) for line, c in zip(plain.splitlines(), circuits)]
    if got != want or len(got) != len(circuits):
        print("JSON with %d worst paths is not as expected" % k)
        return True
    return False


def refused(*arguments):
    """Whether the arguments are turned away with status 2 and nothing is printed."""
    done = subprocess.run([PASS, *arguments], input=text("one", [], [[0, 0, 0]], [9, 1, 1, 1, 0]), capture_output=True, text=True)
    return done.returncode == 2 and done.stdout == ""


def doubled_chain():
    """Whether the 100 worst paths of a chain whose gates have the same signal at both inputs are the first in order."""
    gates = [[k, k, 8, 1, 2, 1, 2] for k in range(5000)]
    chain = (gates, [[5000, 0, 0]], [20000, 1, 1, 1, 0])
    began = time.time()
    out = subprocess.run([PASS, "--worst", "100", "--json", "-"], input=text("chain", *chain), capture_output=True, text=True).stdout
    listed = json.loads(out)["worst"]
    row = {"register": 0, "slack": 20000 - 1 - 10001, "arrival": 10001, "required": 19999, "path": list(range(5001))}
    return listed == [row] * 100 and time.time() - began < 60


def main():
    count = int(sys.argv[1]) if len(sys.argv) > 1 else 600
    rng = random.Random(11)
    circuits = [dense_circuit(rng) if i % 3 == 0 else some_circuit(rng) for i in range(count)]
    ties = 0
    for late in (True, False):
        kind = [] if late else ["--early"]
        for k in (1, 2, 7, 100):
            some = circuits if k == 100 else circuits[:count // 3]
            lines = [line for i, c in enumerate(some) for line in ["c%d: %s" % (i, word(*c))] + table(c, late, k)]
            if differ(some, lines, "--worst", str(k), *kind):
                return 1
            few = some[:count // 6]
            lines = [line for i, c in enumerate(few) for line in ["c%d: %s" % (i, word(*c))] + table(c, late, k) + steps(c, late, k)]
            if differ(few, lines, "--paths", "--worst", str(k), *kind) or differ_json(few, late, k):
                return 1
        ties += sum(a[0] == b[0] for c in circuits for a, b in zip(paths(c, late)[:100], paths(c, late)[1:100]))
    all_listed = sum(len(paths(c, True)) <= 100 for c in circuits)
    if all_listed == 0 or all_listed == count or ties == 0:
        print("the circuits are too much alike")
        return 1
    for arguments in (["--worst", "0", "-"], ["--worst", "101", "-"], ["--worst", "x", "-"], ["--worst", "99999999999999999999", "-"], ["-", "--worst"], ["--early", "-"],
                      ["--worst", "3", "--report", "-"], ["--period", "--worst", "3", "-"], ["--worst", "3"]):
        if not refused(*arguments):
            print("%s are not turned away" % " ".join(arguments))
            return 1
    if not doubled_chain():
        print("the worst paths of the doubled chain are not as expected, or take too long")
        return 1
    print("%d circuits, all worst paths the same, %d equal slacks among them; of %d circuits all paths were listed" % (count, ties, all_listed))
    return 0


if __name__ == "__main__":
    sys.exit(main())
