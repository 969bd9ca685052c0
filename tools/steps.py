#!/usr/bin/env python3
"""Names loops, steps and places in Proof.antt files as today's check does.

usage: tools/steps.py NAMES [CRATE..]     at the top of the repository, once, on proofs of the older Rattle

NAMES/CRATE/names.json is what `rattle check --generated NAMES/CRATE --old-names` writes for a crate: for each function the older
and today's name of each loop, step and place, in the order of the code. A chain of `.before` in front of a named step goes, since
a record has the steps of all places before it. It was run once for the port (docs/PORT.md). What it got wrong was mended by hand:
a field of a record that is spelled as a step, and a `let` for a place that is handed on whole.
"""

import json
import os
import re
import sys

WORD = re.compile(r"[^\s(){}.;,@\"«»:]+")
LET = re.compile(r"let ([\w'-]+) = ([\w'-]+)((?:\.before)+) in")


def read(path):
    with open(path, encoding="utf-8") as f:
        return f.read()


def write(path, text):
    with open(path, "w", encoding="utf-8") as f:
        f.write(text)


def key(name):
    """A name with its dashes as underscores, by which the older names are found."""
    return name.replace("-", "_")


def tables(function):
    """The older names of a function's invariants and measures, of its steps and of its places, each with today's."""
    loops, steps, places = {}, {}, {}
    for place, now in zip(function["places"], function["places_by_name"]):
        places[key(place[0])] = now
        old, new = place[2]
        if old:
            steps.setdefault(key(old), new)
    for (old, new), _ in function["loops"]:
        steps.setdefault(key(old), new)
        steps.setdefault(key(old) + "_test", new + "-test")
        for kind in ("invariant", "decreases"):
            loops[key(f"{kind}-{old}")] = f"{kind}-{new}"
    return loops, steps, places


def named(text, function):
    """The text with today's names."""
    loops, steps, places = tables(function)
    out, at = [], 0
    for m in WORD.finditer(text):
        word = m.group(0)
        new = loops.get(key(word))
        if new is None and m.start() and text[m.start() - 1] == ".":
            line = text[text.rfind("\n", 0, m.start()) + 1 : m.start()]
            if text[: m.start()].endswith("tie."):
                new = places.get(key(word))
            elif not re.search(r"\b(use|open) ", line):
                new = steps.get(key(word))
        if new and new != word:
            out += [text[at : m.start()], new]
            at = m.end()
    return "".join(out) + text[at:]


def direct(text):
    """The text with each step cited from `c`: a `let` for an earlier place that is used only with a field becomes its base."""
    text = re.sub(r"(?<![\w.])([\w']+)((?:\.before)+)(?=\.(?!before\b))", r"\1", text)
    found = True
    while found:
        found = False
        for m in LET.finditer(text):
            name, base = m.group(1), m.group(2)
            end = text.find("\n    (λ c", m.end())
            scope = text[m.end() : len(text) if end < 0 else end]
            if all(after == "." for after in re.findall(rf"(?<![\w.'-]){re.escape(name)}(?![\w'-])(.?)", scope)):
                text = text[: m.start()] + f"let {name} = {base} in" + text[m.end() :]
                found = True
                break
    return text


def main():
    names, only = sys.argv[1], sys.argv[2:]
    for crate in sorted(os.listdir("crates")):
        listed = f"{names}/{crate}/names.json"
        if (only and crate not in only) or not os.path.exists(listed):
            continue
        for module, function in json.loads(read(listed)).items():
            m = re.fullmatch(rf"Rattle-{crate}-proofs\.(.*)\.Lts", module)
            path = m and f"crates/{crate}/proofs/" + m.group(1).replace(".", "/") + "/Proof.antt"
            if path and os.path.exists(path) and "Tie as tie" in read(path):
                write(path, direct(named(read(path), function)))


if __name__ == "__main__":
    main()
