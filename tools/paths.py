#!/usr/bin/env python3
"""Where facts stand at a goal: the steps that an answer can cite, by name, from the first to the last.

tools/paths.py CRATE FUNCTION [GOAL..]: FUNCTION is a path below the crate, as a check prints it (`words::give`), GOAL a goal as a
refusal names it (`returns`); without one, all are shown. A line is `c.STEP` and the fields of that step; of a call they are
`.result`, `.ensures`, and `.new.p` of a parameter `p` that it may write.

A check prints the same names, "names you can use", at each goal that is open (`rt check --allow-holes` over an answer `?`), with
the facts' types. This shows them at the goals that are proved too: it reads what `rt check --start FUNCTION --generated` writes.
"""
import os
import re
import subprocess
import sys
import tempfile

import kit


def indent(line):
    """How many spaces a line begins with."""
    return len(line) - len(line.lstrip())


def records(path):
    """The fields of each record of a file: a name, and the record that is its type."""
    with open(path, encoding="utf-8") as f:
        lines = f.read().split("\n")
    found, i = {}, 0
    while i < len(lines):
        record = re.match(r"\s*pub record (\S+?)(?: \(.*)? : Type \d+ where", lines[i])
        i += 1
        if not record:
            continue
        depth, fields = indent(lines[i - 1]), []
        while i < len(lines) and (not lines[i].strip() or indent(lines[i]) > depth):
            field = re.match(r"\s*pub (\S+) :(?: (\S+))?", lines[i])
            if field and indent(lines[i]) == depth + 2 and field[1] != "open":
                fields.append((field[1], (field[2] or "").split(".")[-1]))
            i += 1
        found[record[1]] = fields
    return found


def goals(path):
    """The record that each goal is given, from the file that states them."""
    with open(path, encoding="utf-8") as f:
        text = f.read()
    bodies = dict(re.findall(r"^abbrev pub (\S+) : Type 0\n\1 =\s(.*?)(?=\n\n|\Z)", text, re.M | re.S))
    views = {name: m[1] for name, body in bodies.items() for m in [re.match(r"\s*View\.(In-\S+)", body)] if m}
    found = {}
    for name, body in bodies.items():
        given = [w for w in re.findall(r"[^\s()]+", body) if w in views]
        if given and name not in views and not name.startswith("the-"):
            found[name] = views[given[0]]
    return found


def steps(record, known):
    """The steps of a record, and of those before it, the first one first: each with its fields."""
    found = []
    while record in known:
        fields = dict(known[record])
        following = fields.pop("before", None)
        found = [(name, [inner for inner, _ in known.get(kind, [])]) for name, kind in fields.items()] + found
        record = following
    return found


def main():
    crate, function, *wanted = sys.argv[1:]
    with tempfile.TemporaryDirectory(prefix="paths-") as out:
        words = ["rt", "check", "--start", function, "--generated", out]
        done = subprocess.run(words, cwd=f"{kit.ROOT}/crates/{crate}", capture_output=True, text=True, check=False)
        folder = f"{out}/Rattle-{crate}-proofs/{function.replace('::', '/')}"
        if not os.path.isfile(f"{folder}/Goals.antt"):
            sys.exit(done.stdout[-900:] + done.stderr[-900:])
        known = {**records(f"{folder}/Lts.antt"), **records(f"{folder}/Lts/View.antt")}
        stated = goals(f"{folder}/Goals.antt")
    for goal, record in stated.items():
        if wanted and goal not in wanted:
            continue
        print(goal)
        for step, fields in steps(record, known):
            print(f"  c.{step}" + "".join(f" .{field}" for field in fields))


main()
