#!/usr/bin/env python3
"""Compares what `pass` says of random circuits that are broken in one place or more with a list of refusals of its own.

    tests/random_broken.py [COUNT]      (6000 circuits if not told; needs a built pass: ./muleminute pass --version builds it)"""
import random
import sys
import subprocess
import tempfile

from random_words import PASS, TABLES, some_circuit, word

LARGEST = 1000000


def refusal(gates, registers, times):
    """The number and the place of the first refusal that applies to rows of numbers, or None. There is a row for each line."""
    if any(len(gate) != 7 for gate in gates):
        return 1, 0
    if any(len(register) != 3 for register in registers):
        return 1, 1
    if len(times) != 1 or len(times[0]) != 5:
        return 1, 2
    n, m = len(registers), len(gates)
    if not 1 <= n <= 1024:
        return 2, 0
    if m > 16384:
        return 2, 1
    for place, number in enumerate(x for rows in (gates, registers, times) for row in rows for x in row):
        if number > LARGEST:
            return 3, place
    for k, gate in enumerate(gates):
        if max(gate[0], gate[1]) >= n + k or gate[2] > 15:
            return 4, k
    for k, gate in enumerate(gates):
        if gate[3] > gate[4] or gate[5] > gate[6]:
            return 5, k
    for r, (signal, early, late) in enumerate(registers):
        if signal >= n + m or early > late:
            return 6, r
    return (7, 0) if times[0][1] > times[0][2] else None


def part_of(gates, registers, times, number, place):
    """The kind and the index of the line that a refusal is about, or None where none is."""
    if number in (4, 5):
        return "gate", place
    if number == 6:
        return "register", place
    if number == 7:
        return "times", 0
    if number == 3:
        if place < 7 * len(gates):
            return "gate", place // 7
        place -= 7 * len(gates)
        return ("register", place // 3) if place < 3 * len(registers) else ("times", 0)
    if number == 1:
        kind, rows, length = (("gate", gates, 7), ("register", registers, 3), ("times", times, 5))[place]
        wrong = [i for i, row in enumerate(rows) if len(row) != length]
        return (kind, wrong[0]) if wrong else None
    return None


def odd(rng, old):
    """A number in place of another: near it, near a limit, or any."""
    near = [old + 1, max(old, 1) - 1, 0, 15, 16, LARGEST, LARGEST + 1, 2 ** 32 - 1]
    return min(rng.choice(near + [rng.randrange(2 ** 32)]), 2 ** 32 - 1)


def broken(rng):
    """Rows of numbers of a circuit in which some are changed, left out, doubled or added."""
    gates, registers, times = some_circuit(rng)
    parts = [gates, registers, [times]]
    for _ in range(rng.choice([0, 1, 1, 1, 2, 3])):
        rows = rng.choice(parts)
        if not rows:
            continue
        row = rng.choice(rows)
        how = rng.randrange(12)
        if how == 0:
            rows.remove(row)
        elif how == 1:
            rows.append(list(row))
        elif how == 2 and row:
            row.pop(rng.randrange(len(row)))
        elif how == 3:
            row.insert(rng.randint(0, len(row)), odd(rng, 1))
        elif how == 4 and len(row) > 3:
            row[3], row[4 % len(row)] = row[4 % len(row)], row[3]
        elif row:
            i = rng.randrange(len(row))
            row[i] = odd(rng, row[i])
    return parts


def text(rng, name, gates, registers, times):
    """The text, its lines in any order of kinds, and the number of each line by kind and index."""
    lines, where = ["circuit " + name], {}
    left = [("times", i, row) for i, row in enumerate(times)], [("register", i, row) for i, row in enumerate(registers)], [("gate", i, row) for i, row in enumerate(gates)]
    while any(left):
        kind, i, row = rng.choice([rows for rows in left if rows]).pop(0)
        for _ in range(rng.choice([0, 0, 0, 1])):
            lines.append(rng.choice(["", "   ", "# no line", "\t# gate 1 2 3"]))
        words = [kind] + [TABLES[x] if kind == "gate" and at == 2 and x < 16 and rng.random() < 0.5 else str(x) for at, x in enumerate(row)]
        lines.append(rng.choice(["", "", " "]) + rng.choice([" ", " ", "\t", "  "]).join(words) + rng.choice(["", "", " ", " # so"]))
        where[kind, i] = len(lines)
    return lines + ["end"], where


def main():
    count = int(sys.argv[1]) if len(sys.argv) > 1 else 6000
    rng = random.Random(11)
    expected, lines, kinds = [], [], {}
    for i in range(count):
        parts = broken(rng)
        mine, where = text(rng, "c%d" % i, *parts)
        found = refusal(*parts)
        if found is None:
            want, end = "c%d: %s" % (i, word(parts[0], parts[1], parts[2][0])), ""
        else:
            about = part_of(*parts, *found)
            line = len(lines) + (where[about] if about else 1)
            want, end = "c%d: turned away by %d at %d: " % ((i,) + found), " (line %d)" % line
        kinds[found and found[0]] = kinds.get(found and found[0], 0) + 1
        expected.append((want, end))
        lines += mine
    with tempfile.NamedTemporaryFile("w", suffix=".circuit", newline="") as f:
        f.write("".join(line + rng.choice(["\n", "\n", "\r\n"]) for line in lines))
        f.flush()
        answers = subprocess.run([PASS, f.name], capture_output=True, text=True).stdout.splitlines()
    assert len(answers) == count, (len(answers), answers[-1:])
    for got, (want, end) in zip(answers, expected):
        assert got.startswith(want) and got.endswith(end) and (end or got == want), (got, want, end)
    told = ", ".join("%d by %d" % (kinds[number], number) for number in sorted(k for k in kinds if k))
    print("%d circuits, all the same: %d whole, turned away %s" % (count, kinds.get(None, 0), told))
    return 0


if __name__ == "__main__":
    sys.exit(main())
