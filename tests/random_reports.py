#!/usr/bin/env python3
"""Compares the reports of `pass` on random circuits, line by line, with those of an implementation of its own.

    tests/random_reports.py [COUNT]      (2000 circuits if not told; needs a built pass: ./muleminute pass --version builds it)"""
import random
import sys

from random_words import TABLES, arrivals, differ, shortest_period, some_circuit, steps, word


def report(name, circuit):
    gates, registers, times = circuit
    period, output_early, output_late, setup, hold = times
    n = len(registers)
    latest = arrivals(gates, [late + output_late for _, _, late in registers], 1, max)
    earliest = arrivals(gates, [early + output_early for _, early, _ in registers], 0, min)
    setups = [period + early - latest[signal] - setup for signal, early, _ in registers]
    holds = [earliest[signal] - late - hold - 1 for signal, _, late in registers]
    lines = ["circuit " + name, "times %d %d %d %d %d" % tuple(times)]
    lines += ["register %d %d %d" % tuple(register) for register in registers]
    lines += ["gate %d %d %s %d %d %d %d" % (one, two, TABLES[table], *delays) for one, two, table, *delays in gates]
    lines.append("end")
    said = word(*circuit).split(":")[0].split(" by ")[0].split()
    if said[0] == "passed,":
        lines.append("passed")
    else:
        r, late = int(said[3]), said[1] == "late"
        signal, early, last = registers[r]
        if late:
            lines.append("too-late %d %d %d" % (r, latest[signal] + setup, period + early))
            source, found = steps(gates, n, latest, signal, 1, lambda b, a: b > a)
        else:
            lines.append("too-early %d %d %d" % (r, earliest[signal], last + hold))
            source, found = steps(gates, n, earliest, signal, 0, lambda b, a: b < a)
        lines += ["from %d" % source] + ["through %d %d" % step for step in found]
    lines += ["margins %d %d" % both for both in zip(setups, holds)]
    lines.append("smallest %d %d %d %d" % (setups.index(min(setups)), min(setups), holds.index(min(holds)), min(holds)))
    return lines + ["period %d" % shortest_period(*circuit), "end"]


def main():
    count = int(sys.argv[1]) if len(sys.argv) > 1 else 2000
    rng = random.Random(23)
    circuits = [some_circuit(rng) for _ in range(count)]
    expected = [line for i, circuit in enumerate(circuits) for line in report("c%d" % i, circuit)]
    if differ(circuits, expected, "--report"):
        return 1
    print("%d reports of %d lines, all the same" % (count, len(expected)))
    return 0


if __name__ == "__main__":
    sys.exit(main())
