#!/usr/bin/env python3
"""Tries the edits of edits/, which the gate leaves out: each makes a mistake in the code, and the prover must refuse each.

    tools/more_edits.py [CRATE ..]      (all crates that have some, if none is named)

They are tried in a copy of the repository, in place of those of crates/*/must-fail/, by 'rt must-fail'. The last line says how
many were refused; the status is 0 only if all were."""
import os
import re
import shutil
import subprocess
import sys
import tempfile

TOP = os.path.join(os.path.dirname(os.path.abspath(__file__)), "..")
EDITS = os.path.join(TOP, "edits")


def copy_with_edits(to, crates):
    """A copy of the crates, of which just these have edits: those of edits/."""
    shutil.copy(os.path.join(TOP, "crates.txt"), to)
    shutil.copytree(os.path.join(TOP, "crates"), os.path.join(to, "crates"), ignore=shutil.ignore_patterns("out", "must-fail"))
    for crate in crates:
        shutil.copytree(os.path.join(EDITS, crate), os.path.join(to, "crates", crate, "must-fail"))
    subprocess.run(["git", "init", "-q", to], check=True)


def main():
    crates = sys.argv[1:] or sorted(os.listdir(EDITS))
    unknown = [it for it in crates if not os.path.isdir(os.path.join(EDITS, it))]
    if unknown:
        sys.exit("%s: no edits of %s: edits/ has %s" % (sys.argv[0], unknown[0], ", ".join(sorted(os.listdir(EDITS)))))
    wanted = sum(len(os.listdir(os.path.join(EDITS, it))) for it in crates)
    refused = 0
    with tempfile.TemporaryDirectory() as to:
        copy_with_edits(to, crates)
        with subprocess.Popen(["rt", "must-fail"] + crates, cwd=to, stdout=subprocess.PIPE, stderr=subprocess.STDOUT, text=True) as run:
            for line in run.stdout:
                print(line, end="", flush=True)
                refused += bool(re.search(r"must-fail \S+: refused, as it must be", line))
    print("%d of %d edits refused" % (refused, wanted))
    sys.exit(refused != wanted or run.returncode)


if __name__ == "__main__":
    main()
