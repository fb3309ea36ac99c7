#!/usr/bin/env python3
"""Compares what `pass --json` prints, parsed by Python's json, with the plain words and with an implementation of its own:
on all circuits of examples/ and crates/pass/data/, on files with odd names, and on random circuits.

    tests/json_words.py [COUNT]      (600 random circuits if not told; needs a built pass: ./muleminute pass --version builds it)"""
import glob
import json
import os
import random
import re
import subprocess
import sys
import tempfile

from random_words import PASS, TOP, shortest_period, some_circuit, text, word

JUDGED = {"margin", "shortest_period"}
MISSED = JUDGED | {"register", "path", "arrival", "limit"}
ODD_NAMES = ['quote"', "back\\slash", "new\nline", "tab\t", "bell\a", "delete\x7f", "\u00fc\u2028\U0001f600", " ", "{}"]


def call(path, *options):
    done = subprocess.run([PASS, *options, path], capture_output=True)
    return done.stdout.decode(), done.returncode, done.stderr


def objects(path):
    """The objects that are printed of a file, one on each line, with no key twice."""
    def unique(pairs):
        assert len(dict(pairs)) == len(pairs), pairs
        return dict(pairs)
    out, status, err = call(path, "--json")
    plain, plain_status, plain_err = call(path)
    assert out.endswith("\n") or not out
    found = [json.loads(line, object_pairs_hook=unique) for line in out.split("\n")[:-1]]
    assert (status, err) == (plain_status, plain_err)
    words = plain.split("\n")[:-1]
    assert len(found) == len(words), (path, len(found), len(words))
    return list(zip(found, words))


def plain_word(o):
    """The plain word that an object tells."""
    title = o["name"] + ": " if "name" in o else ""
    if o["word"] == "turned away":
        r = o["refusal"]
        assert sorted(r) == ["line", "number", "place", "reason"]
        return title + "turned away by %d at %d: %s (line %d)" % (r["number"], r["place"], r["reason"], r["line"])
    if o["word"] == "passed":
        return title + "passed, margin %d and %d" % (o["margin"]["setup"], o["margin"]["hold"])
    by = " by " + ", ".join(map(str, o["path"][1:])) if o["path"][1:] else ""
    return title + "%s at %d%s: %d and %d" % (o["word"], o["register"], by, o["arrival"], o["limit"])


def check_object(o, want, path):
    assert o["file"] == path, (o["file"], path)
    assert type(o["line"]) is int and o["line"] >= 1
    assert plain_word(o) == want, (plain_word(o), want)
    keys = {"passed": JUDGED, "too late": MISSED, "too early": MISSED, "turned away": {"refusal"}}[o["word"]]
    # Where the period is 0 the margin is no part of it; `tests/near.py` looks at the number.
    assert set(o) - {"name", "near"} == keys | {"file", "line", "word"}, o
    assert "near" not in o or ("margin" in o and (o["near"] < 0) == (o["margin"]["setup"] < 0)), o
    if "margin" in o:
        assert sorted(o["margin"]) == ["hold", "setup"]
        assert (o["word"] == "passed") == (min(o["margin"].values()) >= 0)
        assert (o["word"] == "too late") == (o["margin"]["setup"] < 0)


def begins(path):
    """The lines of a file that begin a circuit."""
    lines = open(path, encoding="latin-1").read().split("\n")
    return [n for n, line in enumerate(lines, 1) if re.match(r"\s*circuit\b(?!-)", line)]


def check_files():
    count = 0
    for path in sorted(glob.glob(os.path.join(TOP, "examples", "*.circuit")) + glob.glob(os.path.join(TOP, "crates", "pass", "data", "*.circuit"))):
        told = objects(path)
        for o, want in told:
            check_object(o, want, path)
        assert [o["line"] for o, _ in told] == begins(path)[:len(told)], path
        count += len(told)
    return count


def margins(gates, registers, times):
    """The smallest margins, each by trying other setup and hold times: by how much they could be longer."""
    def smallest(k, other, wrong):
        # Where only this sum is looked at a circuit is wrong from some time on.
        few = [list(times), list(times)]
        m = 0
        def is_wrong(add):
            t = list(times)
            t[k] += add
            t[other] = -10 ** 9
            return word(gates, registers, t).startswith(wrong)
        while is_wrong(m):
            m -= 1
        while not is_wrong(m + 1):
            m += 1
        return m
    return {"setup": smallest(3, 4, "too late"), "hold": smallest(4, 3, "too early")}


def check_random(count):
    rng = random.Random(9)
    circuits = [some_circuit(rng) for _ in range(count)]
    with tempfile.TemporaryDirectory() as folder:
        path = os.path.join(folder, "random")
        open(path, "w").write("".join(text("c%d" % i, *c) for i, c in enumerate(circuits)))
        told = objects(path)
        assert len(told) == count
        for i, ((o, want), c) in enumerate(zip(told, circuits)):
            check_object(o, want, path)
            assert want == "c%d: %s" % (i, word(*c))
            assert o["shortest_period"] == shortest_period(*c), o
            assert o["margin"] == margins(*c), (o, margins(*c))
            if "path" in o:
                check_path(o, *c)
    return count


def check_path(o, gates, registers, times):
    """A path begins at a register, leads from gate to gate, and ends at the signal that the register takes."""
    path = o["path"]
    assert path[0] < len(registers) and path[-1] == registers[o["register"]][0]
    for before, signal in zip(path, path[1:]):
        assert before in gates[signal - len(registers)][:2]


def check_odd_names():
    with tempfile.TemporaryDirectory() as folder:
        for odd in ODD_NAMES:
            path = os.path.join(folder, odd)
            open(path, "w").write('circuit "\\/<>\'&\ntimes 9 0 0 0 0\nregister 0 0 0\nend\ncircuit\nend\n')
            (first, a), (second, b) = objects(path)
            check_object(first, a, path)
            check_object(second, b, path)
            assert first["name"] == "\"\\/<>'&" and "name" not in second
            assert (first["line"], second["line"]) == (1, 5)
    return len(ODD_NAMES)


def main():
    count = int(sys.argv[1]) if len(sys.argv) > 1 else 600
    files, names, some = check_files(), check_odd_names(), check_random(count)
    print("%d circuits of files, %d odd names of files and %d random circuits: all objects as they should be" % (files, names, some))


if __name__ == "__main__":
    main()
