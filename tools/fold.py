#!/usr/bin/env python3
"""Makes finished proof files shorter: today `rt tidy` does, which this calls.

tools/fold.py PROOF_FILE..: tidies the crate of each file, and says how many lines each had and has. A proof's answers stood once
in one file with a line for each goal, and this folded them into one term; today `Answers.antt` answers only the goals that Rattle
leaves, and what can still go is imports that nothing uses. `rt tidy` drops those, lays the files out and checks the crate again;
where that fails, it puts the files back. The crate must be proved.
"""
import os
import subprocess
import sys


def lines(path):
    """How many lines a file has."""
    with open(path, encoding="utf-8") as f:
        return len(f.read().split("\n"))


def crate(path):
    """The folder of the crate that a proof file belongs to."""
    folder = os.path.abspath(path)
    while folder != "/" and os.path.basename(folder) != "proofs":
        folder = os.path.dirname(folder)
    return os.path.dirname(folder)


def main():
    files = sys.argv[1:]
    if not files or any(not os.path.isfile(path) for path in files):
        sys.exit(__doc__)
    before = {path: lines(path) for path in files}
    status = 0
    for folder in sorted(set(map(crate, files))):
        status |= subprocess.run(["rt", "tidy"], cwd=folder, check=False).returncode
    for path in files:
        print(path, before[path], "->", lines(path), "lines")
    sys.exit(1 if status else 0)


main()
