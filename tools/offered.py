#!/usr/bin/env python3
"""Writes the proof files that a check offers: today `rt check --start FUNCTION` does, which this calls.

tools/offered.py CRATE [FUNCTION..]: for each FUNCTION, and if none is given for each that has no proof in target/dev.out, which
`tools/dev CRATE` wrote. Files that are there stay as they are. Holes stay holes.
"""
import os
import re
import subprocess
import sys

ROOT = os.path.dirname(os.path.dirname(os.path.abspath(__file__)))


def unproved(crate):
    """The functions of the crate that the last check of tools/dev found no proof of, by their paths below the crate."""
    with open(f"{ROOT}/target/dev.out", encoding="utf-8") as f:
        text = f.read()
    return re.findall(rf"^fn {crate}::(\S+): no proof: expected", text, re.M)


def main():
    if len(sys.argv) < 2:
        sys.exit(__doc__)
    crate, *functions = sys.argv[1:]
    words = [w for name in functions or unproved(crate) for w in ("--start", name)]
    if not words:
        sys.exit("tools/offered.py: no function without a proof in target/dev.out")
    sys.exit(subprocess.run(["rt", "check", *words], cwd=f"{ROOT}/crates/{crate}", check=False).returncode)


main()
