#!/usr/bin/env python3
"""Lists the places in src/ where an older form may stand, by point of docs/DESIGN-PASS.md.

usage: tools/places.py [--count] [COMMIT]

A line of the source is a place if it fits a pattern below; points 2 and 5 compare whole functions. With COMMIT the
files are read as they stood there. A place that is listed is one to look at, not one that is wrong.
"""
import collections
import re
import subprocess
import sys

PATTERNS = {
    "1 enums, flags, numbers for kinds": [
        ("an enum", r"^\s*(pub )?enum "),
        ("a flag as the answer", r"-> (bool|Result<bool)|^\s*\) -> (bool|Result<bool)"),
        ("a flag as a field or parameter", r"(^\s*(pub )?[a-z_]+|\b(second|table|added|fits)): bool\b"),
        ("a number for a kind", r"chance::draw\(|draw\([a-z]+, [0-9]|\.one == 1|pub extern \"C\" fn|^\) -> u32|\.number\(\)"),
    ],
    "3 loops": [("a loop", r"^\s*(while|loop|for) ")],
    "4 equality, order, conversion, printing": [
        ("by hand", r"fn (same|number|place|earlier|expected|keyword_of|table_of|field|[a-z_]*_column|[a-z_]*_words|put_[a-z_]+|copy_bits|show)\b"),
        ("an impl", r"^impl.* for "),
    ],
    "6 buffers, parallel lists, places by number": [
        ("a place by number", r"(gates|registers|times|clocks|delays|n)\[[^\]]*[0-9][^\]]*\]"),
        ("a count by division", r"len\(\) [/%] [37]"),
        ("a buffer", r"\[(0|false); "),
        ("a list of many", r"Vec<|&'?[a-z]* ?(mut )?\[(u32|u64|bool|Option<Entry>)\](,|\)| \{|$).*\[(u32|u64|bool)\]"),
    ],
    "7 a switch on what to do": [("a match on a kind", r"match (kind|edge|column|detail|refusal|keyword_of|m\.refusal)\b|const NAMES")],
}


def files(commit):
    if commit:
        names = subprocess.run(["git", "ls-tree", "-r", "--name-only", commit, "crates"], capture_output=True, text=True, check=True).stdout.split()
    else:
        names = subprocess.run(["git", "ls-files", "-co", "--exclude-standard", "crates"], capture_output=True, text=True, check=True).stdout.split()
    for name in sorted(names):
        if "/src/" in name and name.endswith(".rt"):
            if commit:
                yield name, subprocess.run(["git", "show", f"{commit}:{name}"], capture_output=True, text=True, check=True).stdout
            else:
                with open(name) as f:
                    yield name, f.read()


def functions(text):
    """Each function's first line, signature (with its clauses) and body."""
    for m in re.finditer(r"^( *)(?:pub(?:\([a-z]+\))? )?(?:extern \"C\" )?fn (\w+)", text, re.M):
        open_ = re.compile(r"^" + m.group(1) + r"\{$|\{$", re.M).search(text, m.start())
        close = re.compile(r"^" + m.group(1) + r"\}", re.M).search(text, m.start())
        if open_ and close and open_.start() < close.start():
            yield text.count("\n", 0, m.start()) + 1, m.group(2), text[m.start():open_.start()], text[open_.end():close.start()]


def shape(body):
    """A body with its names and numbers left out."""
    kept = {"let", "mut", "for", "in", "if", "else", "match", "return", "while", "loop", "break", "as", "None", "Some", "Ok", "Err"}
    text = re.sub(r"//.*", "", body)
    text = re.sub(r"[A-Za-z_]\w*", lambda m: m.group(0) if m.group(0) in kept else "x", text)
    return re.sub(r"\s+", " ", re.sub(r"\d[\d_x]*", "0", text)).strip()


def twins(sources):
    """Bodies of three lines or more that are alike but for names and numbers."""
    seen = collections.defaultdict(list)
    for name, text in sources:
        for line, fn, _, body in functions(text):
            if body.count("\n") >= 3:
                seen[shape(body)].append(f"{name}:{line} {fn}")
    return [places for places in seen.values() if len(places) > 1]


def together(sources):
    """Facts that stand in the contracts of three functions or more, and parameters that three or more have together."""
    facts, groups = collections.defaultdict(list), collections.defaultdict(list)
    for name, text in sources:
        for line, fn, head, _ in functions(text):
            if "trials/" in name:
                continue
            for clause in re.findall(r"^\s*requires (?:\w+ )?\{ (.*) \}$", head, re.M):
                fact = re.sub(r"\b(self|a|circuit)\.(entry\.|now\.|old\.)?(circuit\.)?", "", clause)
                facts[fact].append(f"{name}:{line} {fn}")
            parts = re.search(r"\((.*?)\)\s*(?:->|\n|$)", head, re.S)
            names = re.findall(r"(\w+):", parts.group(1)) if parts else []
            for i, x in enumerate(names):
                for y in names[i + 1:]:
                    groups[(x, y)].append(f"{name}:{line} {fn}")
    return {k: v for k, v in facts.items() if len(v) > 2}, {k: v for k, v in groups.items() if len(v) > 2}


def main():
    args = [a for a in sys.argv[1:] if a != "--count"]
    counting = "--count" in sys.argv
    sources = list(files(args[0] if args else None))
    found = collections.OrderedDict()
    for point, patterns in PATTERNS.items():
        for what, pattern in patterns:
            places = [f"{name}:{i}: {line.strip()}" for name, text in sources for i, line in enumerate(text.split("\n"), 1)
                      if re.search(pattern, line) and not line.strip().startswith("//") and "ghost" not in line]
            found[f"{point} / {what}"] = places
    found["2 twins / bodies alike but for names and numbers"] = ["  ~  ".join(t) for t in twins(sources)]
    facts, groups = together(sources)
    found["5 together / a fact required by three functions or more"] = [f"{len(v)} x {k}" for k, v in sorted(facts.items(), key=lambda e: -len(e[1]))]
    found["5 together / two parameters of three functions or more"] = [f"{len(v)} x {k[0]}, {k[1]}" for k, v in sorted(groups.items(), key=lambda e: -len(e[1]))]
    triple = r"gates\.now [a-z_.]*registers\.now [a-z_.]*times\.now"
    found["5 together / a clause with the three lists of a circuit"] = [f"{name}:{i}" for name, text in sources for i, line in enumerate(text.split("\n"), 1)
                                                                       if re.search(triple, line) and "ghost" not in line]
    for what in sorted(found):
        print(f"{len(found[what]):4} {what}")
        if not counting:
            for place in found[what]:
                print(f"       {place}")


main()
