#!/usr/bin/env python3
"""Writes the circuits that the program `pass` is run on in the gate: crates/pass/data/ and crates/pass/args.

Every refusal at each kind of place, every limit exactly and one past it, and good circuits.
What `pass` must print of them is crates/pass/stdout."""
import os
import sys

TOP = os.path.join(os.path.dirname(os.path.abspath(__file__)), "..")
DATA = os.path.join(TOP, "crates", "pass", "data")

GOOD_TIMES = "20 2 4 3 1"
GATE = "0 0 nor 3 8 3 8"
REGISTER = "1 0 2"


def circuit(name, times=(GOOD_TIMES,), registers=("1 0 2",), gates=("0 0 nor 3 8 3 8",)):
    lines = ["circuit " + name]
    lines += ["times " + t for t in times]
    lines += ["register " + r for r in registers]
    lines += ["gate " + g for g in gates]
    return "\n".join(lines + ["end"]) + "\n"


def write(name, *circuits):
    with open(os.path.join(DATA, name), "w", newline="") as f:
        f.write("\n".join(circuits))


def put(numbers, at, value):
    words = numbers.split()
    words[at] = str(value)
    return " ".join(words)


def counts():
    """Lines with another count of numbers than they should have."""
    return [
        circuit("gate-of-six", gates=("0 0 nor 3 8 3",)),
        circuit("gate-of-eight", gates=("0 0 nor 3 8 3 8 9",)),
        circuit("six-and-eight-are-fourteen", gates=("0 0 nor 3 8 3", "0 0 nor 3 8 3 8 9")),
        circuit("register-of-two", registers=("1 0",)),
        circuit("register-of-four", registers=("1 0 2 3",)),
        circuit("times-of-four", times=("20 2 4 3",)),
        circuit("times-of-six", times=("20 2 4 3 1 1",)),
        circuit("no-times", times=()),
        circuit("times-twice", times=(GOOD_TIMES, GOOD_TIMES)),
        circuit("register-line-first-but-gate-named", registers=("1 0",), gates=("0 0 nor 3 8 3",))]


def sizes():
    """No register, the most, and one more."""
    return [
        circuit("no-register", registers=(), gates=()),
        circuit("most-registers", registers=("0 0 0",) * 1024, gates=()),
        circuit("one-register-more", registers=("0 0 0",) * 1025, gates=())]


def large():
    """Each number at the limit, where it can be, and one past it."""
    large = []
    for column in range(7):
        if column > 2:
            greatest = put(put(GATE, 4, 1000000), 6, 1000000)
            large.append(circuit("gate-column-%d-at-limit" % column, gates=(put(greatest, column, 1000000),)))
        large.append(circuit("gate-column-%d" % column, gates=(GATE, put(GATE, column, 1000001))))
    for column in range(3):
        if column > 0:
            large.append(circuit("register-column-%d-at-limit" % column, registers=(put(put(REGISTER, 2, 1000000), column, 1000000),)))
        large.append(circuit("register-column-%d" % column, registers=(REGISTER, put(REGISTER, column, 1000001))))
    for column in range(5):
        latest = put(GOOD_TIMES, 2, 1000000)
        large.append(circuit("time-column-%d-at-limit" % column, times=(put(latest, column, 1000000),)))
        large.append(circuit("time-column-%d" % column, times=(put(GOOD_TIMES, column, 1000001),)))
    large.append(circuit("largest-of-32-bits", times=(put(GOOD_TIMES, 0, 4294967295),)))
    return large


def gates():
    """Inputs, tables and delays of gates."""
    return [
        circuit("first-input-itself", gates=("1 0 nor 3 8 3 8",)),
        circuit("second-input-itself", gates=("0 1 nor 3 8 3 8",)),
        circuit("input-from-a-later-gate", registers=("1 0 2",), gates=("2 0 nor 3 8 3 8", "0 0 nor 3 8 3 8")),
        circuit("gates-in-order", registers=("2 0 2",), gates=("0 0 nor 3 8 3 8", "1 0 nor 3 8 3 8")),
        circuit("table-15", gates=("0 0 15 3 8 3 8",)),
        circuit("table-16", gates=(GATE, "0 0 16 3 8 3 8")),
        circuit("first-least-above-greatest", gates=("0 0 nor 9 8 3 8",)),
        circuit("second-least-above-greatest", gates=(GATE, "0 0 nor 3 8 9 8")),
        circuit("least-is-greatest", gates=("0 0 nor 8 8 8 8",))]


def registers():
    """Signals and clocks of registers, and output times."""
    return [
        circuit("signal-past", registers=("1 0 2", "3 0 2")),
        circuit("last-signal", registers=("1 0 2", "2 0 2")),
        circuit("early-above-late", registers=("1 3 2",)),
        circuit("early-is-late", registers=("1 2 2",)),
        circuit("output-early-above-late", times=("20 5 4 3 1",)),
        circuit("output-early-is-late", times=("20 4 4 3 1",))]


def order():
    """Several reasons in one circuit: the first of the list is answered."""
    everything = circuit("all-but-counts", times=("1000001 5 4 3 1",), registers=(), gates=("9 9 16 9 8 9 8",))
    return [
        everything,
        circuit("large-before-gate", times=("1000001 5 4 3 1",), registers=("9 3 2",), gates=("9 9 16 9 8 9 8",)),
        circuit("gate-before-delay", times=("20 5 4 3 1",), registers=("9 3 2",), gates=("0 0 nor 9 8 9 8", "9 9 16 9 8 9 8")),
        circuit("delay-before-register", times=("20 5 4 3 1",), registers=("9 3 2",), gates=("0 0 nor 9 8 9 8",)),
        circuit("register-before-output", times=("20 5 4 3 1",), registers=("9 3 2",)),
        circuit("output-last", times=("20 5 4 3 1",))]


def words():
    """Circuits that are passed, too late and too early, some of them just so."""
    counter = ("0 0 nor 3 8 3 8", "0 1 xor 4 9 2 7")
    and_not = ("0 1 and 3 5 3 5", "2 2 nor 3 6 3 6")
    two = ("2 0 2", "3 0 2")
    other = ("3 0 2", "2 0 2")
    return [
        circuit("inverter"),
        circuit("inverter-slow", times=("16 2 4 3 1",)),
        circuit("inverter-early", gates=("0 0 nor 1 8 1 8",)),
        circuit("counter", times=("18 2 4 3 1",), registers=two, gates=counter),
        circuit("counter-early", times=("18 2 4 3 1",), registers=("2 0 2", "0 0 2"), gates=counter),
        circuit("and-not", registers=other, gates=and_not),
        circuit("and-not-slow", times=("19 2 4 3 1",), registers=other, gates=and_not),
        circuit("just-in-time", times=("17 2 4 3 1",)),
        circuit("setup-1-more", times=("17 2 4 4 1",)),
        circuit("period-0", times=("0 2 4 3 1",)),
        circuit("hold-1-less", times=("20 2 4 3 2",)),
        circuit("hold-at-the-end", times=("20 2 4 3 3",)),
        circuit("early-clock-of-the-taker", times=("17 2 4 3 1",), registers=("2 1 2", "2 0 2"), gates=("0 1 or 3 8 3 8",)),
        circuit("late-clock-of-the-taker", times=("30 2 4 3 1",), registers=("2 0 2", "2 0 4"), gates=("0 1 or 3 8 3 8",)),
        circuit("too-late-before-too-early", times=("13 2 4 3 1",), registers=("0 0 2", "2 0 2"), gates=("0 1 or 3 8 3 8",)),
        circuit("second-input-later", times=("10 2 4 3 1",), registers=("3 0 2", "2 0 2"), gates=("0 1 or 3 8 3 9", "0 2 or 3 8 3 8")),
        circuit("long-path", times=("9 2 4 3 1",), registers=("13 0 2",),
                gates=tuple("%d %d first 2 3 2 3" % (k, k) for k in range(13)))]


def good():
    """Texts that are read whatever their blanks, comments and names of tables."""
    names = "never nor first-only not-second second-only not-first xor nand and xnor first first-or-not-second second second-or-not-first or always"
    return [
        "# a name may be left out, blanks and comments do not count, and a line may end in CR LF\r\n\r\n"
        "circuit\r\n\ttimes 20\t2 4 3 1 # five\r\nregister 1 0 2\r\n  gate 0 0 nor 3 8 3 8  \r\nend\r\n",
        circuit("tables-by-name", gates=tuple("0 0 %s 3 8 3 8" % n for n in names.split())),
        circuit("tables-by-number", gates=tuple("0 0 %d 3 8 3 8" % n for n in range(16))),
        circuit("no-gate", registers=("0 0 2",), gates=()),
        circuit("leading-zeros", times=("0020 02 04 03 01",)),
        circuit("!~no-last-newline").rstrip("\n")]


FILES = (
    ("counts.circuit", counts),
    ("sizes.circuit", sizes),
    ("most-gates.circuit", lambda: [circuit("most-gates", gates=("0 0 1 0 0 0 0",) * 16384)]),
    ("one-gate-more.circuit", lambda: [circuit("one-gate-more", gates=("0 0 1 0 0 0 0",) * 16385)]),
    ("large.circuit", large),
    ("gates.circuit", gates),
    ("registers.circuit", registers),
    ("order.circuit", order),
    ("words.circuit", words),
    ("good.circuit", good),
)


def main():
    os.makedirs(DATA, exist_ok=True)
    for name, circuits in FILES:
        write(name, *circuits())
    with open(os.path.join(TOP, "crates", "pass", "args"), "w") as f:
        f.write("\n".join(["--exit-zero"] + [name for name, _ in FILES]) + "\n")
    return 0


if __name__ == "__main__":
    sys.exit(main())
