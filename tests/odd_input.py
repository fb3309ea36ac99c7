#!/usr/bin/env python3
"""Runs `pass` and `bench` on bad, odd and large input: what is wrong has to be told clearly, with the file and the line.

    tests/odd_input.py      (needs built programs: ./muleminute pass --version and ./muleminute bench --version build them)"""
import json
import os
import re
import select
import subprocess
import sys
import tempfile
import time

TOP = os.path.join(os.path.dirname(os.path.abspath(__file__)), "..")
GOOD = b"circuit c\ntimes 20 2 4 3 1\nregister 1 0 2\ngate 0 0 nor 3 8 3 8\nend\n"
TOLD = b"cycles 2\nstart 1\nrandom 7\nclock 1 0 2\ndelay 3 1 8 8\nshow 4 0 1\ntake 1 0 0\n"


def run(program, *arguments, stdin=b""):
    path = os.path.join(TOP, "crates", program, "out", program)
    done = subprocess.run([path] + list(arguments), input=stdin, capture_output=True, timeout=60)
    return done.returncode, done.stdout.decode(), done.stderr.decode()


class Folder:
    def __init__(self, path):
        self.path = path

    def file(self, name, text):
        path = os.path.join(self.path, name)
        with open(path, "wb") as f:
            f.write(text)
        return path


def same(got, want, what):
    assert got == want, "%s:\ngot  %r\nwant %r" % (what, got, want)


# What `pass` has to say of a text, by its fault: the line, and how the rest begins.
CIRCUITS = [
    (b"", None, " no circuit"),
    (b"# nothing\n\n", None, " no circuit"),
    (b"times 1 2 3 4 5\n", 1, "expected a line `circuit` or `circuit NAME`, found `times`\n"),
    (b"circuit a b\n", 1, "expected at most one name of printable ASCII after `circuit`, found `b`\n"),
    (b"circuit \xc3\xa4\nend\n", 1, "expected at most one name of printable ASCII after `circuit`, found `\\xc3\\xa4`\n"),
    (b"circuit\nwire 1\nend\n", 2, "expected a line that begins with `times`, `register`, `gate` or `end`, found `wire`\n"),
    (b"circuit\n" + b"w" * 41 + b" 1\nend\n", 2, "expected a line that begins with `times`, `register`, `gate` or `end`, found `" + "w" * 40 + "...`\n"),
    (b"circuit\n\x00\nend\n", 2, "found a NUL byte, which no text has\n"),
    (b"circuit\n# \x00 stands here in peace\ngate 1\x00\nend\n", 3, "found a NUL byte, which no text has\n"),
    (b"\xef\xbb\xbfcircuit\n\xef\xbb\xbfend\n", 2, "expected a line that begins with `times`, `register`, `gate` or `end`, found `\\xef\\xbb\\xbfend`\n"),
    (b"circuit\ncircuit\nend\n", 2, "expected a line that begins with `times`, `register`, `gate` or `end`, found `circuit`\n"),
    (b"circuit\nregister +1 0 2\nend\n", 2, "expected a number, found `+1`\n"),
    (b"circuit\nregister -1 0 2\nend\n", 2, "expected a number, found `-1`\n"),
    (b"circuit\nregister 0x1 0 2\nend\n", 2, "expected a number, found `0x1`\n"),
    (b"circuit\nregister 1.5 0 2\nend\n", 2, "expected a number, found `1.5`\n"),
    (b"circuit\ngate 0 0 nor 3 8 x 8\nend\n", 2, "expected a number, found `x`\n"),
    (b"circuit\ngate 0 0 Nor 3 8 3 8\nend\n", 2, "expected the name or the number of a table, found `Nor`\n"),
    (b"circuit\ngate 0 0 n\xc3\xb6r 3 8 3 8\nend\n", 2, "expected the name or the number of a table, found `n\\xc3\\xb6r`\n"),
    (b"circuit\nend end\n", 2, "expected nothing after `end`, found `end`\n"),
    (GOOD + b"circuit d\n", 7, "expected a line `end`; the text ends inside a circuit\n"),
    (GOOD + b"x" * 5_000_000 + b"\n", 6, "expected a line of at most 1048576 bytes\n"),
    (b"circuit\ngate " + b"0" * 5_000_000 + b" \xff\nend\n", 2, "expected a line of at most 1048576 bytes\n"),
]

# What is said of a circuit whose lines are no circuit, though its text has no fault.
REFUSED = [
    (b"circuit\nregister 0 0 2\nend\n", "turned away by 1 at 2"),
    (b"circuit\ntimes 20 2 4 3 1\ntimes 20 2 4 3 1\nregister 0 0 2\nend\n", "turned away by 1 at 2"),
    (b"circuit\ntimes 20 2 4 3 1\nend\n", "turned away by 2 at 0"),
]

# Numbers past 2^32 are turned away like every number above 1,000,000, at their place, and the file is read on.
LARGE = [
    (b"circuit\ntimes 20 2 4 3 1\nregister 1 0 4294967296\ngate 0 0 nor 3 8 3 8\nend\n",
        "turned away by 3 at 9: register 0: late time 4294967295 or more is above 1000000 (line 3)\n"),
    (b"circuit\ntimes 20 2 4 3 1\nregister 1 0 2\ngate 0 0 nor 3 8 3 99999999999999999999999999\nend\n",
        "turned away by 3 at 6: gate 0: greatest delay of the second input 4294967295 or more is above 1000000 (line 4)\n"),
    (b"circuit\ntimes 20 2 4 3 4294967295\nregister 1 0 2\ngate 0 0 nor 3 8 3 8\nend\n",
        "turned away by 3 at 14: hold time 4294967295 or more is above 1000000 (line 2)\n"),
    (b"circuit\ntimes 20 2 4 3 1\nregister 1 0 2\ngate 0 0 4294967296 3 8 3 8\nend\n",
        "turned away by 3 at 2: gate 0: table 4294967295 or more is above 1000000 (line 4)\n"),
    (b"circuit\ntimes 20 2 4 3 1\nregister 1 0 4294967294\ngate 0 0 nor 3 8 3 8\nend\n",
        "turned away by 3 at 9: register 0: late time 4294967294 is above 1000000 (line 3)\n"),
]

# What `bench` has to say of a text of delays.
DELAYS = [
    (b"", 1, "expected a line `cycles`"),
    (b"start 1\n", 2, "expected a line `cycles`"),
    (b"cycles 2\ncycles 2\n", 2, "expected just one line `cycles`"),
    (b"cycles\n", 1, "expected"),
    (b"cycles 1 2\n", 1, "expected 1 number after `cycles`: how many"),
    (b"cycles 4294967296\n", 1, "expected a number below 4294967296, found `4294967296`\n"),
    (b"cycles +1\n", 1, "expected a number, found `+1`\n"),
    (b"cycles one\n", 1, "expected a number, found `one`\n"),
    (b"cycles -1\n", 1, "expected a number"),
    (b"cycles 2\nstart 1 0\n", 2, "expected"),
    (b"cycles 2\nstart x\n", 2, "expected a number, found `x`\n"),
    (b"cycles 2\nstart 2\n", 2, "expected 0 or 1, found `2`\n"),
    (b"start 1\n\nstart 1\n", 3, "expected just one line `start`"),
    (b"random 1\nrandom 2\n", 2, "expected just one line `random`"),
    (b"random 4294967296\n", 1, "expected a number below"),
    (b"cycles 2\nshow 0 1 1\n", 2, "expected a register of the circuit, found `1`\n"),
    (b"cycles 2\ntake 1 0 2\n", 2, "expected 0 or 1, found `2`\n"),
    (b"cycles 2\ntake 2 0 1\ntake 1 0 1\n", 3, "expected a cycle no earlier than that of the line `take` above"),
    (b"cycles 3\nclock 2 0 1\nclock 1 0 1\n", 3, "expected a cycle no earlier than that of the line `clock` above"),
    (b"cycles 2\ndelay 2 1 8 8\nshow 1 0 1\ndelay 1 1 8 8\n", 4, "expected a moment no earlier than that of the line `delay` above"),
    (b"cycles 2\nshow 2 0 1\nshow 1 0 1\n", 3, "expected a moment no earlier"),
    (b"cycles 2\nrandom\n", 2, "expected 1 number after `random`"),
    (b"cycles 2\nclock 0 0\n", 2, "expected 3 numbers after `clock`: cycle, register and time"),
    (b"cycles 2\ndelay 0 1 8\n", 2, "expected 4 numbers after `delay`: moment, signal and two delays"),
    (b"cycles 2\ndelay 0 1 8 8 8\n", 2, "expected 4 numbers after `delay`: moment, signal and two delays"),
    (b"cycles 2\nshow 0 0\n", 2, "expected 3 numbers after `show`: moment, register and bit"),
    (b"cycles 2\ntake 1 0 # 1\n", 2, "expected 3 numbers after `take`: cycle, register and bit"),
    (b"cycles 2\ntake 0 0\n", 2, "expected 3 numbers after `take`: cycle, register and bit"),
    (b"cycles 2\n\x00\n", 2, "found a NUL byte, which no text has\n"),
    (b"cycles 2\nshow " + b"1" * 1_048_572 + b"\n", 2, "expected a line of at most 1048576 bytes\n"),
    (b"cycles 2 # " + b"long " * 500_000 + b"\n" + b"# nothing\n" * 50_000 + b"clock 1 0\n", 50_002,
        "expected 3 numbers after `clock`: cycle, register and time\n"),
    (b"cycle 2\n", 1, "expected a line that begins with `cycles`, `start`, `random`, `clock`, `delay`, `show` or `take`"),
    (b"Cycles 2\nwait 3\n", 1, "expected a line that begins with"),
    (b"\n# cycles 5\n", 3, "expected a line `cycles`; the text ends without one"),
    (b"cycles 0\n", None, " no cycle"),
    (b"cycles 2\nclock 4 0 1\nclock 5 0 1\n", 3, "expected a cycle that begins before the run's end"),
    (b"cycles 2\nclock 4294967295 0 1\n", 2, "expected a cycle that begins before the run's end"),
]

# What is out of its bounds, by its line counted from 0.
OUTSIDE = [
    (b"cycles 2\ndelay 0 1 9 8\n", 1, "gate 1: delay of the first input 9 is not within 3 to 8"),
    (b"cycles 2\ndelay 0 1 8 2\n", 1, "gate 1: delay of the second input 2 is not within 3 to 8"),
    (b"cycles 2\n\ndelay 0 0 8 8\n", 2, "a delay of a signal that is no gate's"),
    (b"cycles 2\ndelay 0 2 8 8\n", 1, "a delay of a signal that is no gate's"),
    (b"cycles 2\nclock 1 0 3\n", 1, "register 0: clock 3 is not within 0 to 2"),
    (b"cycles 2\nclock 1 1 0\n", 1, "a clock of a register past the last"),
]


def check_pass(folder):
    for text, line, rest in CIRCUITS:
        path = folder.file("bad", text)
        status, out, err = run("pass", path)
        want = "pass: %s:%s" % (path, rest if line is None else "%d: %s" % (line, rest))
        assert status == 2 and err.startswith(want) and err.count("\n") == 1, (text[:80], status, err[:200], want)
        assert not want.endswith("\n") or err == want, (err, want)
        same(out.count("\n"), 1 if text.startswith(GOOD) else 0, text[:80])
    for text, rest in REFUSED:
        status, out, err = run("pass", folder.file("bad", text))
        assert status == 1 and out.startswith(rest) and err == "", (text, status, out, err)
    for text, rest in LARGE:
        path = folder.file("bad", text + GOOD)
        same(run("pass", path), (1, rest + "c: passed, margin 3 and 1\n", ""), text)
    # No beginning of a text that is cut short is read as a circuit, and nothing else changes what is read.
    want = run("pass", folder.file("good", GOOD))
    same(want[0], 0, "good")
    for n in range(len(GOOD) - 1):
        status, out, _ = run("pass", folder.file("cut", GOOD[:n]))
        same((status, out), (2, ""), "cut at %d" % n)
    for text in (GOOD[:-1], GOOD.replace(b"\n", b"\r\n"), GOOD.replace(b" ", b"\t "), b"# \xff\x00\n\n" + GOOD, b"\xef\xbb\xbf" + GOOD,
                 GOOD.replace(b"\n", b" #" + b" comment" * 300_000 + b"\n")):
        same(run("pass", folder.file("other", text)), want, text)
    same(run("pass", "-", stdin=GOOD), want, "standard input")


def check_statuses(folder):
    """The status is that of the worst circuit of a file, wherever it stands, and --exit-zero does not cover what cannot be read."""
    late = GOOD.replace(b"times 20", b"times 9")
    for text, want in ((GOOD + GOOD, 0), (late + GOOD, 1), (GOOD + late, 1)):
        path = folder.file("two", text)
        status, out, err = run("pass", path)
        assert status == want and out.count("\n") == 2 and err == "", (text, status, out, err)
        same(run("pass", "--exit-zero", path), (0, out, err), "--exit-zero")
    same(run("pass", "--exit-zero", os.path.join(folder.path, "missing"))[0], 2, "--exit-zero")


def check_files(folder):
    good = folder.file("good", GOOD)
    told = folder.file("told", TOLD)
    missing = os.path.join(folder.path, "missing")
    for bad in (missing, folder.path):
        for program, arguments in (("pass", [bad]), ("bench", [bad, told]), ("bench", [good, bad])):
            status, out, err = run(program, *arguments)
            assert status == 2 and out == "" and err.startswith("%s: %s: " % (program, bad)), (program, bad, out, err)
    # The other files are answered for all the same.
    status, out, err = run("pass", missing, good)
    assert status == 2 and out.startswith("c: passed") and err.startswith("pass: "), (status, out, err)
    status, out, err = run("bench", good, told, "--vcd", os.path.join(missing, "v"))
    assert status == 2 and out == "" and missing in err, (status, out, err)


def check_bench(folder):
    good = folder.file("good", GOOD)
    for text, line, rest in DELAYS:
        path = folder.file("bad", text)
        status, out, err = run("bench", good, path)
        want = "bench: %s:%s" % (path, rest if line is None else "%d: %s" % (line, rest))
        assert status == 2 and out == "" and err.startswith(want) and err.count("\n") == 1, (text[:80], status, out, err)
        assert not want.endswith("\n") or err == want, (err, want)
    dump = os.path.join(folder.path, "dump")
    for text, line, rest in OUTSIDE:
        status, out, err = run("bench", good, folder.file("bad", text), "--vcd", dump)
        want = "c: turned away by 9 at %d: %s" % (line, rest)
        assert status == 1 and out.startswith(want) and out.endswith("(line %d)\n" % (line + 1)) and err == "", (text, out, err)
        assert not os.path.exists(dump), "the dump is begun"
        same(run("bench", "--exit-zero", good, folder.file("bad", text))[0], 0, "--exit-zero")
    for times, rest in ((b"0 2 4 3 1", "0: the bench makes no run with a period of 0\n"),
                        (b"20 0 0 0 1", "1: the bench makes no run with a setup and a latest output time of 0\n")):
        path = folder.file("bad", GOOD.replace(b"20 2 4 3 1", times))
        same(run("bench", path, folder.file("told", TOLD)), (1, "c: turned away by 10 at " + rest, ""), times)
    status, out, err = run("bench", folder.file("bad", GOOD + GOOD), folder.file("told", TOLD))
    assert status == 2 and out == "" and ":6: expected just one circuit" in err, (out, err)
    status, out, err = run("bench", folder.file("bad", GOOD.replace(b"3 8 3 8", b"9 8 3 8")), folder.file("told", TOLD))
    assert status == 1 and out.startswith("c: turned away by 5 at 0: "), (out, err)


def check_arguments(folder):
    good, told = folder.file("good", GOOD), folder.file("told", TOLD)
    for program, name in (("pass", [good]), ("bench", [good, told])):
        for arguments in ([], ["--wrong"], ["-x"], name + ["--wrong=1"]):
            status, out, err = run(program, *arguments)
            assert status == 2 and out == "" and err.startswith(program + ": ") and "Usage: %s" % program in err, (program, arguments, out, err)
            assert not arguments or arguments[-1].split("=")[0] in err, err
        want = run(program, "--version")
        assert want[0] == 0 and want[1].startswith("%s (muleminute) " % program) and want[2] == "", want
        # What is asked for first is told.
        for arguments in (["-V"], ["--version", "--help"], name + ["-V"]):
            same(run(program, *arguments), want, arguments)
        want = run(program, "--help")
        assert want[0] == 0 and "Usage: %s" % program in want[1] and want[2] == "" and max(map(len, want[1].splitlines())) <= 110, want
        for arguments in (["-h"], ["--help", "--version"]):
            same(run(program, *arguments), want, arguments)
    for arguments in (["--json", "--period", good], ["--report", good, "--paths"], ["--near", "--json", good], ["--worst", "3", "--period", good],
                      ["--register", "0", "--json", good], ["--register", "0", "--paths", good]):
        status, out, err = run("pass", *arguments)
        assert status == 2 and out == "" and "cannot be used with" in err and "Usage: pass" in err, (arguments, out, err)
    for arguments, named in ((["--worst", "0", good], "--worst"), (["--worst", "101", good], "--worst"), (["--worst=x", good], "--worst"), ([good, "--worst"], "--worst"),
                             (["--early", good], "--worst"), (["--register", "-1", good], "-1"), ([good, "--register"], "--register")):
        status, out, err = run("pass", *arguments)
        assert status == 2 and out == "" and err.startswith("pass: ") and named in err, (arguments, out, err)
    for arguments, named in (([good], "DELAYS"), ([good, told, told], told), (["--trials", good, told], "--trials"), (["--trials", "0", good, told], "--trials"),
                             (["--trials=4294967296", good, told], "--trials"), ([good, told, "--vcd"], "--vcd"), ([good, told, "--trials"], "--trials"),
                             (["--vcd", "v", "--trials", "2", good, told], "cannot be used with"), (["-", "-"], "standard input")):
        status, out, err = run("bench", *arguments)
        assert status == 2 and out == "" and err.startswith("bench: ") and named in err, (arguments, out, err)
    status, out, err = run("bench", "--trials", "3", good, folder.file("none", b"cycles 2\n"))
    assert status == 2 and out == "" and "random" in err, (out, err)
    same(run("bench", "-", told, stdin=GOOD), run("bench", good, told), "standard input")
    same(run("bench", "--trials=3", good, told), run("bench", "--trials", "3", good, told), "--trials=3")
    dash = os.path.join(folder.path, "-x")
    os.rename(folder.file("x", GOOD), dash)
    path = os.path.join(TOP, "crates", "pass", "out", "pass")
    for arguments in (["--", "-x"], ["./-x"], ["--exit-zero", "--", "-x"]):
        done = subprocess.run([path] + arguments, capture_output=True, cwd=folder.path)
        same((done.returncode, done.stdout, done.stderr), (0, b"c: passed, margin 3 and 1\n", b""), arguments)


def check_long(folder):
    """A long run tells how far it is on one line of a terminal, unless that is not wanted; what cannot be written is told."""
    good = folder.file("good", GOOD)
    endless = folder.file("endless", b"cycles 4294967295\nrandom 1\n")
    path = os.path.join(TOP, "crates", "bench", "out", "bench")
    master, slave = os.openpty()
    with subprocess.Popen([path, good, endless, "--trials", "3"], stdout=subprocess.DEVNULL, stderr=slave) as run_:
        told = b""
        while told.count(b"cycles") < 3:
            told += os.read(master, 1000)
        run_.kill()
    os.close(master)
    os.close(slave)
    parts = told.decode().split("\r\x1b[K")
    assert parts[0] == "" and len(parts) >= 4 and all(
        part.startswith("bench: run 1 of 3, ") and part.endswith(" of 4294967295 cycles") for part in parts[1:4]), told
    # Where standard error is no terminal nothing is told of it.
    with subprocess.Popen([path, good, endless, "--trials", "3"], stdout=subprocess.DEVNULL, stderr=subprocess.PIPE) as run_:
        ready, _, _ = select.select([run_.stderr], [], [], 4)
        run_.kill()
        assert not ready or run_.stderr.read() == b""
    status, out, err = run("bench", "--quiet", "--trials", "1", good, folder.file("some", b"cycles 300000\nrandom 1\n"))
    same((status, out, err), (0, "1 run of 300000 cycles, as drawn\n", ""), "--quiet")
    if os.path.exists("/dev/full"):
        status, out, err = run("bench", good, folder.file("told", TOLD), "--vcd", "/dev/full")
        assert status == 2 and err.startswith("bench: /dev/full: "), (status, err)
        with open("/dev/full", "w") as full:
            done = subprocess.run([path, good, folder.file("told", TOLD)], stdout=full, stderr=subprocess.PIPE)
        assert done.returncode == 2 and done.stderr.startswith(b"bench: "), done


def check_limits(folder):
    """The largest circuit with the largest delays, and one too large."""
    registers = "".join("register %d 0 1000000\n" % (1024 + r) for r in range(1024))
    gate = "gate 0 0 nor 1000000 1000000 1000000 1000000\n"
    text = "circuit\ntimes 1000000 0 1 0 0\n" + registers.replace("1000000", "0") + gate.replace("1000000", "9") * 16384 + "end\n"
    told = folder.file("few", b"cycles 1\n")
    status, out, err = run("bench", folder.file("large", text.replace("times 1000000", "times 20").encode()), told)
    assert status == 0 and out.endswith("1 cycle, as drawn\n"), (status, out[-200:], err)
    for more, word in ((registers[:registers.index("\n") + 1], "2 at 0"), (gate, "2 at 1")):
        status, out, err = run("bench", folder.file("large", text.replace("end\n", more + "end\n").encode()), told)
        assert status == 1 and out.startswith("turned away by %s: " % word), (out, err)
    # The longest chain with the largest delays: its sums are far above 2^32.
    chain = "".join("gate %d %d nor 1000000 1000000 1000000 1000000\n" % (k, k) for k in range(16384))
    chain = "circuit chain\ntimes 0 1000000 1000000 1000000 0\nregister 16384 1000000 1000000\n" + chain + "end\n"
    status, out, err = run("pass", folder.file("chain", chain.encode()))
    assert status == 1 and out.startswith("chain: too late at 0 by 1, 2, ") and out.endswith(", 16384: 16387000000 and 1000000\n"), (status, out[-200:], err)
    status, out, err = run("pass", "--period", folder.file("chain", chain.encode()))
    assert "16386000000" in out, (status, out[-200:], err)
    one = GOOD.replace(b"20 2 4", b"1000000 2 4").replace(b"3 8 3 8", b"1 1000000 0 1000000")
    status, out, err = run("bench", folder.file("slow", one), folder.file("told", b"cycles 1\ndelay 0 1 1000000 1000000\n"))
    assert out != "" and "cycle" in out.splitlines()[-1], (status, out, err)


def check_memory(folder):
    """A text of many circuits, larger than the memory that is allowed; its circuits stand across all places where it is cut."""
    try:
        import resource
    except ImportError:
        return
    count = 40000
    one = open(os.path.join(TOP, "examples", "stepper.circuit"), "rb").read()
    path = folder.file("many", one * count)
    most = 40 * 2 ** 20
    assert os.path.getsize(path) > most
    program = os.path.join(TOP, "crates", "pass", "out", "pass")
    for arguments, stdin in (([path], None), (["-"], open(path, "rb"))):
        done = subprocess.run([program] + arguments, stdin=stdin, capture_output=True,
                              preexec_fn=lambda: resource.setrlimit(resource.RLIMIT_AS, (most, most)))
        assert done.returncode == 0 and done.stderr == b"", done.stderr
        assert done.stdout == b"stepper: passed, margin 13 and 1\n" * count
    # A fault far behind has its line.
    lines = one.count(b"\n")
    status, out, err = run("pass", folder.file("many", one * 9999 + b"circuit\nwire\n"))
    assert status == 2 and out.count("\n") == 9999 and (":%d: expected a line that begins" % (lines * 9999 + 2)) in err, err
    status, out, err = run("pass", folder.file("many", b"# nothing\n" * 299999 + b"circuit\ngate 0\nend"))
    assert status == 1 and out.startswith("turned away by 1 at 0: ") and out.endswith("(line 300001)\n"), out


def check_pipe(folder):
    """What comes bit by bit is answered as it comes, while the pipe stays open."""
    path = os.path.join(TOP, "crates", "pass", "out", "pass")
    with subprocess.Popen([path, "-"], stdin=subprocess.PIPE, stdout=subprocess.PIPE) as run_:
        for half in (GOOD[:30], GOOD[30:]):
            run_.stdin.write(half)
            run_.stdin.flush()
        ready, _, _ = select.select([run_.stdout], [], [], 30)
        assert ready, "no answer while the pipe is open"
        same(run_.stdout.readline(), b"c: passed, margin 3 and 1\n", "through a pipe")
        run_.stdin.write(GOOD)
        run_.stdin.close()
        same(run_.stdout.read(), b"c: passed, margin 3 and 1\n", "the rest of a pipe")


def check_overwriting(folder):
    """A dump never stands in the place of a file that is read, however it is spelled; what a run that is cut off has dumped is readable."""
    good, told = folder.file("good", GOOD), folder.file("told", TOLD)
    links = [os.path.join(folder.path, name) for name in ("symbolic", "hard", "of_symbolic", "told_hard")]
    os.symlink(good, links[0])
    os.link(good, links[1])
    os.symlink("symbolic", links[2])
    os.link(told, links[3])
    spelled = [good, told, os.path.join(folder.path, ".", "good"), os.path.join(folder.path, "..", os.path.basename(folder.path), "told")] + links
    for target in spelled + [os.path.relpath(good)]:
        status, out, err = run("bench", good, told, "--vcd", target)
        assert status == 2 and out == "" and "--vcd would overwrite what is read" in err, (target, status, out, err)
        assert open(good, "rb").read() == GOOD and open(told, "rb").read() == TOLD, target
    with open(good, "rb") as stdin:
        path = os.path.join(TOP, "crates", "bench", "out", "bench")
        done = subprocess.run([path, "-", told, "--vcd", good], stdin=stdin, capture_output=True)
    assert done.returncode == 2 and open(good, "rb").read() == GOOD, done
    dump = os.path.join(folder.path, "dump")
    endless = folder.file("endless", b"cycles 4294967295\nrandom 1\n")
    with subprocess.Popen([path, good, endless, "--vcd", dump], stdout=subprocess.DEVNULL) as run_:
        deadline = time.time() + 60
        while time.time() < deadline and (not os.path.exists(dump) or os.path.getsize(dump) < 200_000):
            time.sleep(0.05)
        run_.kill()
    content = open(dump).read()
    assert len(content) >= 200_000 and "$enddefinitions $end\n" in content and "\n$timescale 1 ps $end\n" in content
    now = -1
    for line in content.split("$enddefinitions $end\n")[1].splitlines():
        assert re.fullmatch(r"#[0-9]+|[01](r|g|clock_r|any_r|lost_r)[0-9]+", line), line
        if line[0] == "#":
            assert int(line[1:]) > now, line
            now = int(line[1:])


def check_endless(folder):
    """Memory stays that of the largest circuit on input of any kind that does not end."""
    try:
        import resource
    except ImportError:
        return
    most = 48 * 2 ** 20
    program = os.path.join(TOP, "crates", "pass", "out", "pass")
    bench = os.path.join(TOP, "crates", "bench", "out", "bench")
    good = folder.file("good", GOOD)
    gate = b"gate 0 0 nor 3 8 3 8\n"

    def feed(arguments, parts, megabytes=100):
        """What a program says of parts that are told over and over, as many megabytes of them, and then nothing more."""
        with subprocess.Popen(arguments, stdin=subprocess.PIPE, stdout=subprocess.PIPE, stderr=subprocess.PIPE,
                              preexec_fn=lambda: resource.setrlimit(resource.RLIMIT_AS, (most, most))) as run_:
            try:
                run_.stdin.write(parts[0])
                part = parts[1] * (2 ** 20 // len(parts[1]))
                for _ in range(megabytes):
                    run_.stdin.write(part)
                run_.stdin.write(parts[2])
                run_.stdin.close()
            except BrokenPipeError:
                pass
            out, err = run_.stdout.read().decode(), run_.stderr.read().decode()
            return run_.wait(), out, err

    for parts, want in (
            ((b"", b"\0", b""), (2, "", "pass: -:1: found a NUL byte, which no text has\n")),
            ((b"", b"x", b""), (2, "", "pass: -:1: expected a line of at most 1048576 bytes\n")),
            ((b"#", b"x\0", b"\n" + GOOD), (0, "c: passed, margin 3 and 1\n", "")),
            ((b"", b"\n", GOOD), (0, "c: passed, margin 3 and 1\n", "")),
            ((GOOD[:-4], b"  # a comment\n", b"end\n"), (0, "c: passed, margin 3 and 1\n", "")),
            ((b"circuit\ntimes 20 2 4 3 1\nregister 1 0 2\n", gate, b"end\n" + GOOD),
             (1, "turned away by 2 at 1: more than 16384 gates (line 1)\nc: passed, margin 3 and 1\n", "")),
            ((b"circuit\ntimes 20 2 4 3 1\n", b"register 0 0 2\n", b"end\n"), (1, "turned away by 2 at 0: more than 1024 registers (line 1)\n", "")),
            ((b"circuit\n", b"times 20 2 4 3 1\n", b"end\n"), (1, "turned away by 1 at 2: 10 times or more are not five (line 1)\n", "")),
            ((b"circuit\n", gate, b"gate 1\nend\n"), None)):
        got = feed([program, "-"], parts)
        if want is None:
            assert got[0] == 1 and got[1].startswith("turned away by 1 at 0: a gate has 7 numbers (line "), got
        else:
            same(got, want, parts[0][:40] + b" .. " + parts[1][:20])
    same(feed([bench, good, "-"], (b"cycles 2\n#", b"x", b"\nrandom 1\n"))[1].splitlines()[-1:], ["2 cycles, as drawn"], "a comment of delays")
    for arguments in ([bench, good, "-"], [bench, "-", good]):
        same(feed(arguments, (b"", b"\0", b"")), (2, "", "bench: -:1: found a NUL byte, which no text has\n"), arguments[1:])
    if os.path.exists("/dev/full"):
        same(run("pass", "/dev/full"), (2, "", "pass: /dev/full:1: found a NUL byte, which no text has\n"), "/dev/full")


def check_output(folder):
    """What cannot be written is told, and a reader who has had enough is not told anything."""
    many = folder.file("many", GOOD * 20000)
    path = os.path.join(TOP, "crates", "pass", "out", "pass")
    if os.path.exists("/dev/full"):
        with open("/dev/full", "w") as full:
            done = subprocess.run([path, many], stdout=full, stderr=subprocess.PIPE)
        assert done.returncode == 2 and done.stderr.startswith(b"pass: ") and done.stderr.count(b"\n") == 1, done
    for program, arguments in (("pass", [many]), ("bench", [folder.file("good", GOOD), folder.file("long", b"cycles 100000\nrandom 1\n")])):
        path = os.path.join(TOP, "crates", program, "out", program)
        with subprocess.Popen([path] + arguments, stdout=subprocess.PIPE, stderr=subprocess.PIPE) as run_:
            run_.stdout.readline()
            run_.stdout.close()
            assert run_.stderr.read() == b"" and run_.wait() == 2, program


def check_names(folder):
    """Names of files are told with control characters escaped; an argument that is not UTF-8 by its position."""
    odd = os.path.join(folder.path, "a\nb\x1b[0m\tc")
    status, out, err = run("pass", odd)
    assert status == 2 and err.startswith("pass: %s/a\\nb\\u{1b}[0m\\tc: " % folder.path) and err.count("\n") == 1, err
    status, out, err = run("bench", odd, odd)
    assert status == 2 and err.startswith("bench: %s/a\\nb\\u{1b}[0m\\tc: " % folder.path) and err.count("\n") == 1, err
    for program in ("pass", "bench"):
        path = os.path.join(TOP, "crates", program, "out", program)
        done = subprocess.run([os.fsencode(path), b"x", b"\xff"], capture_output=True)
        same((done.returncode, done.stdout, done.stderr), (2, b"", b"%s: argument 2 is not UTF-8\n" % program.encode()), program)


def check_forms(folder):
    """A circuit that is turned away is told in every form, with the same words; numbers above 2^32 are whole in JSON and in tables."""
    bad = folder.file("bad", GOOD.replace(b"3 8 3 8", b"9 8 3 8"))
    words = "turned away by 5 at 0: gate 0: least delay 9 of the first input is above its greatest 8 (line 4)"
    for option, want in ((None, "c: %s\n" % words), ("--period", "c: %s\n" % words), ("--near", "c: %s\n" % words), ("--paths", "c: %s\n" % words),
                         ("--report", "# c: %s\n" % words), ("--worst=3", "c: %s\n" % words)):
        same(run("pass", *([option] if option else []), bad), (1, want, ""), option)
    status, out, err = run("pass", "--json", bad)
    refusal = {"number": 5, "place": 0, "line": 4, "reason": "gate 0: least delay 9 of the first input is above its greatest 8"}
    same((status, json.loads(out)), (1, {"file": bad, "line": 1, "name": "c", "word": "turned away", "refusal": refusal}), "--json")
    chain = "".join("gate %d %d nor 1000000 1000000 1000000 1000000\n" % (k, k) for k in range(16384))
    path = folder.file("chain", ("circuit chain\ntimes 0 1000000 1000000 1000000 0\nregister 16384 1000000 1000000\n" + chain + "end\n").encode())
    status, out, err = run("pass", "--json", path)
    got = json.loads(out)
    same((status, got["arrival"], got["limit"], got["shortest_period"]), (1, 16387000000, 1000000, 16386000000), "JSON")
    same(got["margin"]["setup"]["margin"] if isinstance(got["margin"]["setup"], dict) else got["margin"]["setup"], -16386000000, "JSON")
    status, out, err = run("pass", "--paths", path)
    assert status == 1 and "16386000000" in out, out[-400:]


def check_trials(folder):
    """A run that is not made by its number alone is counted apart; numbers go on from 0."""
    skew = folder.file("skew", b"circuit skew\ntimes 10 2 4 3 1\nregister 0 0 30\nend\n")
    told = folder.file("told", b"cycles 4\nrandom 1\nclock 2 0 12\n")
    status, out, err = run("bench", skew, told, "--trials", "20")
    whole = re.fullmatch(r"([0-9]+) runs of 4 cycles, ([0-9]+) not as drawn: first with random ([0-9]+), in cycle [1-4] at register 0; "
                         r"([0-9]+) not made, as a told clock comes too soon: first with random ([0-9]+)\n", out)
    assert status == 1 and whole, (out, err)
    made, wrong, first, not_made, first_not_made = map(int, whole.groups())
    assert made + not_made == 20 and 0 < wrong <= made and 1 <= min(first, first_not_made) and max(first, first_not_made) <= 20, out
    # What is counted is what single runs come to.
    alone = []
    for seed in range(1, 21):
        _, out, _ = run("bench", skew, folder.file("alone", b"cycles 4\nrandom %d\nclock 2 0 12\n" % seed))
        alone.append("not made" if "turned away by 9" in out else "wrong" if "not as drawn" in out.splitlines()[-1] else "right")
    same((alone.count("not made"), alone.count("wrong"), alone.index("not made") + 1, alone.index("wrong") + 1), (not_made, wrong, first_not_made, first), "--trials")
    out = whole[0]
    number = out.split()[-1]
    status, out, err = run("bench", skew, folder.file("told", b"cycles 4\nrandom %s\nclock 2 0 12\n" % number.encode()))
    assert status == 1 and out.startswith("skew: turned away by 9 at 2: this clock does not come after"), (out, err)
    wrong = folder.file("wrong", b"circuit\ntimes 18 2 4 3 1\nregister 2 0 2\nregister 0 0 2\ngate 0 0 nor 3 8 3 8\nend\n")
    status, out, err = run("bench", wrong, folder.file("told", b"cycles 1\nrandom 4294967295\n"), "--trials", "200")
    whole = re.fullmatch(r"200 runs of 1 cycle, ([0-9]+) not as drawn: first with random ([0-9]+), in cycle 1 at register [01]\n", out)
    assert status == 1 and whole and 0 < int(whole[1]) <= 200, (out, err)
    number = int(whole[2])
    assert number < 2 ** 32, out
    status, out, err = run("bench", wrong, folder.file("told", b"cycles 1\nrandom %d\n" % number))
    assert status == 1 and "not as drawn" in out, out


def main():
    with tempfile.TemporaryDirectory() as path:
        folder = Folder(path)
        for check in (check_pass, check_statuses, check_files, check_bench, check_arguments, check_long, check_limits, check_memory, check_pipe, check_trials,
                      check_overwriting, check_endless, check_output, check_names, check_forms):
            check(folder)
    print("bad input is told: %d texts of circuits, %d of delays, files and arguments"
          % (len(CIRCUITS) + len(REFUSED), len(DELAYS) + len(OUTSIDE)))


if __name__ == "__main__":
    sys.exit(main())
