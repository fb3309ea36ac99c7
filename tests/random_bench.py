#!/usr/bin/env python3
"""Compares `bench` with an implementation of its own, on random circuits with random statements and seeds.

    tests/random_bench.py [COUNT]      (400 runs if not told; needs built programs: ./muleminute bench --version builds one)

Each run is made from the rules alone: what is printed of each cycle has to be the same, and every signal, clock and mark of
the value change dump at every moment. The weaker tools of examples/weaker are tried as well."""
import glob
import itertools
import os
import random
import subprocess
import sys
import tempfile

TOP = os.path.join(os.path.dirname(os.path.abspath(__file__)), "..")
sys.path.insert(0, os.path.join(TOP, "tests"))
from random_words import arrivals, some_circuit, text, word  # noqa: E402

BENCH = os.path.join(TOP, "crates", "bench", "out", "bench")
WEAKER = os.path.join(TOP, "examples", "weaker")
ALL = 2 ** 64 - 1
TABLES = ("never nor first-only not-second second-only not-first xor nand and xnor first first-or-not-second second "
          "second-or-not-first or always").split()


def draw(seed, kind, a, b):
    x = (seed * 0x9e3779b97f4a7c15 ^ kind * 0xc2b2ae3d27d4eb4f ^ a * 0xd6e8feb86659fd93 ^ b * 0xa0761d6478bd642f) & ALL
    for shift in (30, 27):
        factor = 0xbf58476d1ce4e5b9 if shift == 30 else 0x94d049bb133111eb
        x = ((x ^ x >> shift) * factor) & ALL
    return x ^ x >> 31


def between(h, low, high):
    return low + ((h & 0xffffffff) * (min(max(high - low, 0), 0xffffffff) + 1) >> 32)


class Told:
    """What is told: statements, and choices by a seed."""

    def __init__(self, circuit, statements):
        self.gates, self.registers, self.times = circuit
        self.kinds = {k: [s[1:] for s in statements if s[0] == k] for k in ("clock", "delay", "show", "take")}
        self.cycles = [s[1] for s in statements if s[0] == "cycles"][0]
        self.start_told = ([list(s[1:]) for s in statements if s[0] == "start"] or [None])[0]
        self.seed = ([s[1] for s in statements if s[0] == "random"] or [None])[0]
        self.clocks = {}

    def by_seed(self, kind, a, b):
        return None if self.seed is None else draw(self.seed, kind, a, b)

    def bit(self, kind, a, b):
        h = self.by_seed(kind, a, b)
        return 0 if h is None else h & 1

    def start(self, r):
        return self.start_told[r] if self.start_told is not None else self.bit(0, r, 0)

    def delays(self, k, t):
        said = [s for s in self.kinds["delay"] if s[0] <= t and s[1] == len(self.registers) + k]
        if said:
            return said[-1][2:]
        _, _, _, a, b, c, d = self.gates[k]
        h = self.by_seed(1, k, t)
        return (a, c) if h is None else (between(h >> 32, a, b), between(h, c, d))

    def show(self, r, t):
        said = [s for s in self.kinds["show"] if s[0] <= t and s[1] == r]
        return said[-1][2] if said else self.bit(2, r, t)

    def take(self, n, r):
        said = [s for s in self.kinds["take"] if s[0] == n and s[1] == r]
        return said[-1][2] if said else self.bit(4, n, r)

    def clock(self, n, r):
        if (n, r) not in self.clocks:
            _, early, late = self.registers[r]
            begin = n * self.times[0]
            low = begin + early if n == 0 else max(begin + early, self.clock(n - 1, r) + 1)
            said = [s for s in self.kinds["clock"] if s[0] == n and s[1] == r]
            h = self.by_seed(3, n, r)
            self.clocks[n, r] = begin + said[-1][2] if said else low if h is None else between(h, low, begin + late)
        return self.clocks[n, r]


def misfit(told, lines):
    """The first line that is out of its bounds, counted from 0."""
    gates, registers = told.gates, told.registers
    for line, s in lines:
        if s[0] == "delay":
            k = s[2] - len(registers)
            if not 0 <= k < len(gates) or not gates[k][3] <= s[3] <= gates[k][4] or not gates[k][5] <= s[4] <= gates[k][6]:
                return line
        if s[0] == "clock":
            n, r, at = s[1:]
            if not r < len(registers) or not registers[r][1] <= at <= registers[r][2]:
                return line
            if n > 0 and told.clock(n - 1, r) >= n * told.times[0] + at:
                return line
    return None


class Run:
    """A run: what each signal shows at each moment, and what each register holds in each cycle."""

    def __init__(self, told):
        self.told = told
        gates, registers = told.gates, told.registers
        period, early, late, setup, hold = told.times
        self.end = told.cycles * period + max(r[2] for r in registers) + late + 1
        self.waves = [[] for _ in range(len(registers) + len(gates))]
        self.any = [[] for _ in registers]
        self.lost = [[] for _ in registers]
        self.bits = [[told.start(r)] for r in range(len(registers))]
        for t in range(self.end):
            for r, (signal, _, _) in enumerate(registers):
                n = len(self.bits[r]) - 1
                came = told.clock(n + 1, r) + late <= t
                lost = False
                if came:
                    n += 1
                    c = told.clock(n, r)
                    window = range(max(c - setup, 0), c + min(hold + 1, late))
                    wave = self.waves[signal]
                    first = wave[max(c - setup, 0)]
                    lost = any(wave[u] != first for u in window)
                    self.bits[r].append(told.take(n, r) if lost else first)
                self.lost[r].append(lost)
                must = told.clock(n, r) + late <= t < told.clock(n + 1, r) + early
                self.any[r].append(not must)
                self.waves[r].append(self.bits[r][n] if must else told.show(r, t))
            for k, (one, two, table, *_) in enumerate(gates):
                a, b = told.delays(k, t)
                bit = table >> (self.waves[one][max(t - a, 0)] + 2 * self.waves[two][max(t - b, 0)]) & 1
                self.waves[len(registers) + k].append(bit)


def drawn(told):
    """The registers' bits in each cycle if nothing took any time."""
    held = [told.start(r) for r in range(len(told.registers))]
    for _ in range(told.cycles + 1):
        yield held
        signals = list(held)
        for one, two, table, *_ in told.gates:
            signals.append(table >> (signals[one] + 2 * signals[two]) & 1)
        held = [signals[signal] for signal, _, _ in told.registers]


def printed(run):
    told, lines, first = run.told, [], None
    for n, should in enumerate(drawn(told)):
        if n == 0:
            continue
        held = [bits[n] for bits in run.bits]
        wrong = [r for r, bit in enumerate(held) if bit != should[r]]
        if wrong and first is None:
            first = "first in cycle %d at register %d" % (n, wrong[0])
        rest = ", ".join("register %d is %d and drawn %d" % (r, held[r], should[r]) for r in wrong) or "as drawn"
        lines.append("%d: %s, %s" % (n, "".join(map(str, held)), rest))
    cycles = "%d cycle%s" % (told.cycles, "" if told.cycles == 1 else "s")
    lines.append(cycles + (", not as drawn: " + first if first else ", as drawn"))
    return lines, first


def read_dump(path):
    """A reader of value change dumps: each variable's kind, its changes by moment, and the last moment."""
    names, kinds, changes, now, last = {}, {}, {}, 0, 0
    content = open(path).read()
    assert "\n$timescale 1 ps $end\n" in content
    words = content.split()
    i = 0
    while words[i] != "$enddefinitions":
        if words[i] == "$var":
            kind, width, code, name = words[i + 1:i + 5]
            assert width == "1" and words[i + 5] == "$end"
            names[code], kinds[name], changes[name] = name, kind, {}
        i += 1
    for w in words[i + 2:]:
        if w[0] == "#":
            assert int(w[1:]) >= now
            now = int(w[1:])
        else:
            assert w[0] in "01", w
            changes[names[w[1:]]][now] = int(w[0])
    return kinds, changes, now


def wave_of(changes, end):
    wave, bit = [], None
    for t in range(end):
        bit = changes.get(t, bit)
        wave.append(bit)
    return wave


def check_dump(path, run):
    told = run.told
    kinds, changes, last = read_dump(path)
    n = len(told.registers)
    want = {}
    for k, wave in enumerate(run.waves):
        want["%s%d" % ("r" if k < n else "g", k)] = wave
    for r in range(n):
        want["any_r%d" % r] = [int(b) for b in run.any[r]]
        comes = set(itertools.takewhile(lambda t: t < run.end, (told.clock(c, r) for c in itertools.count())))
        want["clock_r%d" % r] = [int(t in comes) for t in range(run.end)]
        want["lost_r%d" % r] = [int(run.lost[r][t]) for t in range(run.end)]
    assert last == run.end and sorted(kinds) == sorted(want)
    for name, wave in want.items():
        assert kinds[name] == "wire" and wave_of(changes[name], run.end) == wave, name


def some_statements(rng, circuit):
    gates, registers, times = circuit
    n, cycles, period = len(registers), rng.randint(1, 5), circuit[2][0]
    moments = (cycles + 1) * period + 9
    said = [("cycles", cycles)]
    if rng.random() < 0.7:
        said.append(("start",) + tuple(rng.randint(0, 1) for _ in registers))
    if rng.random() < 0.7:
        said.append(("random", rng.choice([0, 7, rng.getrandbits(32)])))
    out = rng.random() < 0.1

    def bound(low, high):
        return rng.randint(low, high + (1 if out and rng.random() < 0.3 else 0))

    for kind in ("clock", "delay", "show", "take"):
        some = []
        for _ in range(rng.choice([0, 0, 1, 3, 9])):
            r = rng.randrange(n)
            if kind == "clock":
                some.append((kind, rng.randint(0, cycles + 1), r, bound(registers[r][1], registers[r][2])))
            elif kind == "delay" and gates:
                k = rng.randrange(len(gates))
                some.append((kind, rng.randrange(moments), n + k, bound(gates[k][3], gates[k][4]), bound(gates[k][5], gates[k][6])))
            elif kind == "show":
                some.append((kind, rng.randrange(moments), r, rng.randint(0, 1)))
            elif kind == "take":
                some.append((kind, rng.randint(0, cycles + 1), r, rng.randint(0, 1)))
        said += sorted(some, key=lambda s: s[1])
    return said


def call(circuit_path, delays_path, *options):
    done = subprocess.run([BENCH, circuit_path, delays_path] + list(options), capture_output=True, text=True)
    return done.stdout.splitlines(), done.returncode, done.stderr


def compare(rng, folder, counts):
    circuit = some_circuit(rng)
    said = some_statements(rng, circuit)
    paths = [os.path.join(folder, name) for name in ("c", "d", "v")]
    open(paths[0], "w").write(text("c", *circuit))
    open(paths[1], "w").write("".join(" ".join(map(str, s)) + "\n" for s in said))
    got, status, err = call(paths[0], paths[1], "--vcd", paths[2], "--quiet")
    told = Told(circuit, said)
    line = misfit(told, list(enumerate(said)))
    period, _, late, setup, _ = circuit[2]
    refused = ("9 at %d" % line if line is not None else "10 at 0" if period == 0 else "10 at 1" if late + setup == 0 else None)
    if refused is not None:
        assert len(got) == 1 and got[0].startswith("c: turned away by %s: " % refused) and status == 1, (got, refused, err)
        counts["turned away"] += 1
        return
    run = Run(told)
    want, first = printed(run)
    assert got == want and status == (1 if first else 0), (got, want, status, err)
    check_dump(paths[2], run)
    passed = word(*circuit).startswith("passed")
    assert not (passed and first), "a passed circuit goes wrong"
    counts["passed" if passed else "not passed, not as drawn" if first else "not passed, as drawn"] += 1


def check_large_dump(folder):
    """A dump that is written out in several pieces, read back moment by moment."""
    circuit = ([[0, 1, 1, 3, 8, 2, 9], [0, 1, 6, 4, 9, 2, 7], [2, 3, 14, 0, 5, 0, 5]], [[4, 0, 2], [3, 1, 2]], [30, 2, 4, 3, 1])
    said = [("cycles", 800), ("start", 1, 0), ("random", 77)]
    paths = [os.path.join(folder, name) for name in ("c", "d", "v")]
    open(paths[0], "w").write(text("c", *circuit))
    open(paths[1], "w").write("".join(" ".join(map(str, s)) + "\n" for s in said))
    got, status, err = call(paths[0], paths[1], "--vcd", paths[2])
    run = Run(Told(circuit, said))
    want, first = printed(run)
    assert got == want and status == (1 if first else 0) and err == "", (got[-1], want[-1], status, err)
    assert os.path.getsize(paths[2]) > 2 * 60000, os.path.getsize(paths[2])
    check_dump(paths[2], run)


# Weaker tools, which look right: each says whether it lets a circuit through.
def all_right(circuit, clock, at_most=0, earlier=min):
    """Both sums at every register, with the clock from and to where it is said to come; with at most in place of below in the
    hold sum, or another of the two earliest times of a gate's inputs."""
    gates, registers, (period, out_early, out_late, setup, hold) = circuit
    latest = arrivals(gates, [clock(r)[1] + out_late for r in registers], 1, max)
    earliest = arrivals(gates, [clock(r)[0] + out_early for r in registers], 0, earlier)
    return all(latest[r[0]] + setup <= period + clock(r)[0] and clock(r)[1] + hold < earliest[r[0]] + at_most for r in registers)


def within_bounds(register):
    return register[1:]


def at_most(circuit):
    return all_right(circuit, within_bounds, at_most=1)


def late_everywhere(circuit):
    return all_right(circuit, lambda r: (r[2], r[2])) and all_right(circuit, lambda r: (r[1], r[1]))


def greatest_early(circuit):
    return all_right(circuit, within_bounds, earlier=max)


def period_less_late(circuit):
    """All clocks at the cycle's beginning, and what takes a signal takes its late time off the period; the hold sum is right."""
    gates, registers, (period, out_early, out_late, setup, hold) = circuit
    latest = arrivals(gates, [out_late for _ in registers], 1, max)
    earliest = arrivals(gates, [early + out_early for _, early, _ in registers], 0, min)
    return all(latest[signal] + setup <= period - late and late + hold < earliest[signal] for signal, _, late in registers)


def kept_delays(circuit):
    """Every choice of one delay for each input of each gate, kept for ever, from all contents and with all that registers may
    show; where no clock has a choice."""
    gates, registers, _ = circuit
    assert all(early == late for _, early, late in registers)
    ranges = [range(low, high + 1) for g in gates for low, high in (g[3:5], g[5:7])]
    for delays in itertools.product(*ranges):
        for start in itertools.product((0, 1), repeat=len(registers)):
            for shows in itertools.product((0, 1), repeat=len(registers)):
                said = [("cycles", 4), ("start",) + start]
                said += [("delay", 0, len(registers) + k) + delays[2 * k:2 * k + 2] for k in range(len(gates))]
                said += [("show", 0, r, bit) for r, bit in enumerate(shows)]
                if printed(Run(Told(circuit, said)))[1]:
                    return False
    return True


TOOLS = {"at-most": at_most, "late-everywhere": late_everywhere, "kept-delays": kept_delays, "greatest-early": greatest_early,
         "period-less-late": period_less_late}


def rows_of(path):
    lines = [line.split("#")[0].split() for line in open(path)]
    return [line for line in lines if line]


def read_circuit(path):
    table = {w: k for k, w in enumerate(TABLES)}
    rows = {kind: [] for kind in ("circuit", "times", "register", "gate", "end")}
    for row in rows_of(path):
        rows[row[0]].append([table[w] if w in table else int(w) for w in row[1:]] if row[0] != "circuit" else row)
    return rows["gate"], rows["register"], rows["times"][0]


def read_told(path):
    return [(row[0],) + tuple(map(int, row[1:])) for row in rows_of(path)]


def check_weaker():
    examples = {os.path.basename(path)[:-len(".circuit")] for path in glob.glob(os.path.join(WEAKER, "*.circuit"))}
    assert examples == set(TOOLS), examples ^ set(TOOLS)
    for name, tool in TOOLS.items():
        path = os.path.join(WEAKER, name)
        circuit = read_circuit(path + ".circuit")
        got, status, _ = call(path + ".circuit", path + ".delays")
        assert tool(circuit), name + ": the weaker tool does not let it through"
        assert not word(*circuit).startswith("passed"), name
        assert status == 1 and "not as drawn" in got[-1], (name, got)


def check_examples(folder):
    """The example circuits: with what is told to them, and with everything by chance."""
    by_chance = os.path.join(folder, "by-chance")
    open(by_chance, "w").write("cycles 12\nrandom 1\n")
    for path in sorted(glob.glob(os.path.join(TOP, "examples", "*.circuit"))):
        circuit = read_circuit(path)
        told = path.replace(".circuit", ".delays")
        if os.path.exists(told):
            want, first = printed(Run(Told(circuit, read_told(told))))
            assert call(path, told)[:2] == (want, 1 if first else 0), path
        got, status, _ = call(path, by_chance, "--trials", "40")
        first = None
        for seed in range(1, 41):
            found = printed(Run(Told(circuit, [("cycles", 12), ("random", seed)])))[1]
            first = first or (found and "with random %d, %s" % (seed, found.replace("first ", "")))
        assert len(got) == 1 and got[0].startswith("40 runs of 12 cycles, ") and status == (1 if first else 0), (path, got)
        assert got[0].endswith(first or ", as drawn"), (path, got, first)
        assert not (word(*circuit).startswith("passed") and first), path


def main():
    count = int(sys.argv[1]) if len(sys.argv) > 1 else 400
    rng = random.Random(11)
    counts = {"turned away": 0, "passed": 0, "not passed, as drawn": 0, "not passed, not as drawn": 0}
    with tempfile.TemporaryDirectory() as folder:
        for _ in range(count):
            compare(rng, folder, counts)
        check_examples(folder)
        check_large_dump(folder)
    check_weaker()
    assert count < 200 or all(counts.values()), counts
    words = ", ".join("%d %s" % (n, k) for k, n in counts.items())
    print("%d runs, all as by the rules: %s; %d weaker tools are refuted" % (count, words, len(TOOLS)))


if __name__ == "__main__":
    main()
