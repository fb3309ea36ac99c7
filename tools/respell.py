#!/usr/bin/env python3
"""Brings the repository's own definitions, fields and lemmas to one spelling: words in snake case, facts and types in
camel case.

usage: tools/respell.py [--list]     at the top of the repository; --list prints old and new names and writes nothing

A name is respelled if a file of specs/ or a file of lemmas in proofs/ defines it (as a definition, a record, a field, a
constructor, a lemma, or a variable), and it has a dash. Names of the library, and names that Rattle makes in proofs
(goals and steps, which stand in proofs/F/), keep theirs. It stops, with nothing written, where two names would fall
together, or where a new name is already one of the code's fields or constants.
"""

import pathlib
import re
import sys

WORD = re.compile(r"(\.?)([^\s.(){}⟨⟩⌜⌝\[\];,λ∥]+)")
HEAD = re.compile(r"(?m)^[ ]*(?:unfoldable |abbrev )?(?:pub )?(?:(?:record|data|abbrev|unfoldable|ruleset) )?(?:pub )?([^\s:({.]+)(?= (?:[({][^\n]*[)}] )?:)")
LET = re.compile(r"\blet ([^\s:({.]+)(?= [:=])")
FIELD = re.compile(r"(?m)^[ ]+(?:pub )?([^\s:({.]+)(?= :)")
BINDER = re.compile(r"[({]([^\s:({.]+(?: [^\s:({.]+)*) : ")
LAMBDA = re.compile(r"λ ([^.()]+)\.")
USE = re.compile(r"(?m)^\s*(?:ghost )?use ([^\s{;]+?)(?:\.\{([^}]*)\})?;?(?: as .*)?$")
GOAL = re.compile(r"^(?:returns|loop|invariant|decreases|overflow|bounds|offset|slice|nonzero|prove|if|match|in-[A-Z]\w*)(?:[-_].*)?$|.*-(?:requires|init|preserved|smaller)(?:-.*)?$")


def files(root, *parts):
    return [p for part in parts for p in sorted(root.glob(part)) if "out" not in p.parts]


def respelled(name):
    if not name[0].isupper():
        return name.replace("-", "_")
    return "".join(w[0].upper() + w[1:] for w in name.split("-") if w)


def dashed(name):
    return re.fullmatch(r"[A-Za-z][\w'′-]*", name) and "-" in name


def own_names(root):
    names = set()
    for p in files(root, "crates/*/specs/**/*.antt", "crates/*/proofs/**/*.antt"):
        text = p.read_text()
        found = HEAD.findall(text) + LET.findall(text)
        for group in BINDER.findall(text) + LAMBDA.findall(text):
            found += group.split()
        if p.parent.name in ("specs", "proofs"):
            found += [w for dot, w in WORD.findall(re.sub(r"(?m)^use .*$|--.*$|\"[^\"]*\"", "", text)) if not dot]
        names |= {n for n in found if dashed(n) and not GOAL.match(n)}
    return names


def library_names(root, crates):
    names = set()
    for p in files(root, "crates/*/**/*.antt", "crates/*/**/*.rt"):
        for path, items in USE.findall(p.read_text()):
            parts = path.split(".")
            if parts[0] == "Rattle" and len(parts) > 1 and parts[1] in crates:
                continue
            names |= {i.strip() for i in (items or "").split(",")} | {parts[-1]}
    return names


def code_names(root):
    names = set()
    for p in files(root, "crates/*/src/**/*.rt"):
        text = p.read_text()
        names |= set(re.findall(r"(?m)^\s*(?:pub(?:\([^)]*\))? )?(?:ghost )?([a-z]\w*_\w*)\s*:", text))
        names |= set(re.findall(r"\b(?:const|static) (\w+)\s*:", text))
    return names


def main(argv):
    root = pathlib.Path(".")
    crates = {p.name for p in root.glob("crates/*") if (p / "src").is_dir()}
    if not crates:
        raise SystemExit("respell: no crates here: run it at the top of the repository")
    library = library_names(root, crates)
    names = sorted(own_names(root) - library)
    new = {n: respelled(n) for n in names}
    fields = {f for p in files(root, "crates/*/specs/**/*.antt", "crates/*/proofs/*.antt") for f in FIELD.findall(p.read_text())}
    there = set()
    for p in files(root, "crates/*/specs/**/*.antt", "crates/*/proofs/**/*.antt"):
        there |= set(HEAD.findall(p.read_text()))
    bad = [f"{a} -> {b}" for a, b in new.items() if b in there or b in library or b in code_names(root)]
    back = {}
    for a, b in new.items():
        back.setdefault(b, []).append(a)
    bad += [f"{' and '.join(a)} -> {b}" for b, a in back.items() if len(a) > 1]
    if "--list" in argv:
        print("\n".join(f"{a} {b}" for a, b in new.items()))
        print("\n".join("falls together: " + b for b in bad), file=sys.stderr)
        return 0
    if bad:
        raise SystemExit("respell: these fall together with other names, nothing was written:\n" + "\n".join(bad))
    for p in files(root, "crates/*/specs/**/*.antt", "crates/*/proofs/**/*.antt", "crates/*/src/**/*.rt"):
        text = p.read_text()
        if p.suffix == ".antt":
            out = WORD.sub(lambda m: m.group(1) + (m.group(2) if m.group(1) and m.group(2) not in fields else new.get(m.group(2), m.group(2))), text)
        else:
            out = ghost_only(text, new)
        if out != text:
            p.write_text(out)
    return 0


def ghost_only(text, new):
    """In a file of code only its ghost parts are respelled, and not its comments and strings: no name of the code has a
    dash that joins two letters."""
    spelled = re.compile(r'//[^\n]*|"(?:[^"\\\n]|\\.)*"|(?<![\w\'-])[A-Za-z][\w\']*(?:-[\w\']+)+(?![\w\'-])')
    return spelled.sub(lambda m: new.get(m.group(), m.group()), text)


if __name__ == "__main__":
    raise SystemExit(main(sys.argv[1:]))
