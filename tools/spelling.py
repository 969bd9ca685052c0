#!/usr/bin/env python3
"""Brings this repository's own definitions and lemmas to the spelling of today's Rattle.

usage: tools/spelling.py [--table FILE]      at the top of the repository, once, behind port.py; --table also writes the names, old and new
       tools/spelling.py --listed            the names of LISTED alone: they were found after the rest had been turned

port.py turns the names that the kit's tables hold; this turns the rest, by rule:
- a name that begins in lower case is in snake case: `firstOutside` is `first_outside`, `commasT-length` is `commas_t-length`;
- a dash joins two names of functions: it stays where both its sides are names of definitions or words of the library for an operation; else a plain
  word hangs on by `_`: `decode-encode_one`, `size_range`, `is_tail_spec`;
- a lemma that would have the name of a definition ends in `_lem`.
A step or a goal of a proof is named by Rattle's functions and variables, which keep their spelling: `c.is-tail` is `c.is_tail`.
It turns whole words of .antt files, of clauses in .rt files and of must-fail edits. Functions of src/ and strings keep their names.
"""

import os
import re
import sys

WORD = re.compile(r"[^\s(){}.;,@\"«»:]+")
NAME = r"[^\s(){}.;,@\"«»:]+"
MARKS = r"(?:(?:pattern|unfoldable|abbrev|pub|axiom|data|record|ruleset|private) )*"
SIGNATURE = re.compile(rf"^(\s*){MARKS}({NAME})((?:\s+\{{[^}}]*\}})?(?:\s*[({{][^)}}]*[)}}])*)\s*:(?:\s|$)")
RULESET = re.compile(rf"^(\s*)(?:pub )?ruleset (?:pub )?({NAME})")
DATA = re.compile(rf"^(\s*){MARKS}(?:data|record) (?:pub )?({NAME})")
# What the library calls an operation, in a lemma's name.
LIBRARY = set("""append length take drop map replicate set sets get_or slice_index reverse cons nil concat filter foldr foldl zip sum all any mem le lt ge gt eq
suc add sub mul div mod and or not cond some none map_option""".split())

# Names of the older spelling that stand several on a line, or that a `use` line or a `where` gives; and the lemma that would have
# the name of one of them.
LISTED = """unterminatedQuote unterminatedString finalItem tapeAlphabetItem statesItem machineItem inputItem inputAlphabetItem goesBy wordOutput binaryOutput
unaryOutput lineFeed tooMany wrongArity sigmaWord logTooShort gammaWord deltaWord tapesWord statesWord startWord outputWord machineWord kindWord inputWord
finalWord blankWord workTooShort textTooLong readOne outsideSet invalidUtf8 sheetTooShort itemBy listedNames itemOrder outputTooShort readLeaves nSigma nF
nQ""".split()
LEMMAS = {"work_too_short": "work_too_short_lem"}


def files(ends):
    for folder, dirs, names in os.walk("crates"):
        dirs[:] = sorted(d for d in dirs if d != "out")
        for name in sorted(names):
            if name.endswith(ends):
                yield os.path.join(folder, name)


def read(path):
    with open(path, encoding="utf-8") as f:
        return f.read()


def snake(word):
    """One segment of a name in snake case. A word that begins with a capital is a type and stays."""
    if not word or word[0].isupper():
        return word
    return re.sub(r"(?<=[a-z0-9_])([A-Z])", lambda m: "_" + m.group(1).lower(), word)


def declared():
    """The names that the .antt files declare, each with whether some specs/ declares it at its left edge."""
    found = {}
    for path in files(".antt"):
        for line in read(path).split("\n"):
            if line.lstrip().startswith("--"):
                continue
            m = SIGNATURE.match(line) or RULESET.match(line) or DATA.match(line)
            if m and not m.group(2).startswith(("invariant-", "decreases-")):
                top = "/specs/" in path and not m.group(1)
                found[m.group(2)] = found.get(m.group(2), False) or top
    return found


def functions():
    """The names of the functions of src/."""
    found = set()
    for path in files(".rt"):
        found |= set(re.findall(r"\bfn (\w+)", read(path)))
    return found


def turned(name, known):
    """The spelling of a name."""
    parts = [snake(p) for p in name.lstrip("+").split("-")]
    if any(not p for p in parts):
        return name
    pieces, at = [], 0
    while at < len(parts):
        end = next((j for j in range(len(parts), at, -1) if "_".join(parts[at:j]) in known), None)
        pieces.append(("_".join(parts[at:end]), True) if end else (parts[at], parts[at][0].isupper()))
        at = end or at + 1
    text = pieces[0][0]
    for (one, left), (word, right) in zip(pieces, pieces[1:]):
        text += ("-" if left and right or one[0].isupper() else "_") + word
    if text.endswith("-spec"):
        text = text[:-5] + "_spec"
    return "+" * (len(name) - len(name.lstrip("+"))) + text


def table():
    """Each name that changes, with its spelling; two names of one scope never get the same."""
    names = declared()
    known = {snake(n) for n, top in names.items() if top and "-" not in n and not n[0].isupper()} | functions() | LIBRARY
    rows = {n: turned(n, known) for n in names}
    kept = {n for n, new in rows.items() if n == new}
    plain = {new for n, new in rows.items() if "-" not in n}
    taken = {}
    for n in sorted(rows, key=lambda n: ("-" in n, n)):
        new = rows[n]
        if n != new and "-" in n and (new in kept or new in plain):
            new += "_lem"
        taken.setdefault(new, []).append(n)
        rows[n] = new
    return {n: new for n, new in rows.items() if n != new}, {new: olds for new, olds in taken.items() if len(olds) > 1}


def is_function(word, path):
    """Whether a word of a file is there only as the name of a function of src/, which a definition may share: in a source, in a
    path, behind a dot."""
    return path.endswith(".rt") or not re.search(rf"(?<![\w.'-]){re.escape(word)}(?![\w'-])", re.sub(r"--[^\n]*", "", read(path)))


def steps():
    """A function, a variable, a field or a constant of src/ with dashes for its underscores, as a step of an older proof has
    it."""
    found = set()
    for path in files(".rt"):
        found |= {w for w in re.findall(r"\b[a-z]\w*\b", read(path)) if "_" in w}
    return {w.replace("_", "-"): w for w in found}


def turn_antt(text, rows, behind):
    """Turns each word; behind a dot, and with no row, a step."""
    out, at = [], 0
    for m in WORD.finditer(text):
        word = m.group(0)
        new = rows.get(word)
        if new is None and m.start() and text[m.start() - 1] == ".":
            new = behind.get(word)
            if new is None and (t := re.fullmatch(r"(.+?)(\d+)", word)) and t.group(1) in behind:
                new = behind[t.group(1)] + t.group(2)
        if new is None:
            continue
        out += [text[at : m.start()], new]
        at = m.end()
    return "".join(out) + text[at:]


def turn_rt(text, rows):
    """Turns the words of a source but in strings: no name of Rattle's own has a capital inside or a dash."""
    parts = re.split(r'(b?"(?:\\.|[^"\\])*")', text)
    return "".join(p if k % 2 else turn_antt(p, rows, {}) for k, p in enumerate(parts))


def lemmas_apart(rows):
    """For each file, the lemmas in it that have, already in snake case, the spelling that a definition beside them gets: they end
    in `_lem`."""
    texts = {path: read(path) for path in files(".antt")}
    new = set(rows.values())
    homes = {}
    for path, text in texts.items():
        if "/proofs/" in path:
            for line in text.split("\n"):
                m = SIGNATURE.match(line)
                if m and m.group(2) in new and m.group(2) not in rows:
                    homes.setdefault(m.group(2), set()).add(path)
    uses = {path: re.findall(r"^ *(?:pub )?use Rattle\.(\w+)\.proofs\.([\w.]+)\.\{([^}]*)\}", text, re.M) for path, text in texts.items()}

    def users(home, name):
        crate, module = re.fullmatch(r"crates/(\w+)/proofs/(.*)\.antt", home).groups()
        module = module.replace("/", ".")
        return {path for path, us in uses.items() for c, m, names in us if c == crate and m == module and name in re.split(r"[\s,]+", names)}

    found = {}
    for name, paths in homes.items():
        for home in paths:
            scope = {home} | users(home, name)
            beside = [p for p in scope if any(rows.get(w) == name for w in WORD.findall(texts[p]))]
            if beside:
                for p in scope:
                    found.setdefault(p, {})[name] = name + "_lem"
    return found


def listed():
    """Turns the names of LISTED alone."""
    rows = {name: snake(name) for name in LISTED}
    for path in files((".antt", ".rt", ".edit")):
        text = read(path)
        apart = LEMMAS if "/proofs/" in path else {}
        new = turn_rt(text, rows) if path.endswith(".rt") else turn_antt(text, rows | apart, {})
        if new != text:
            with open(path, "w", encoding="utf-8") as f:
                f.write(new)


def main():
    if "--listed" in sys.argv:
        return listed()
    rows, together = table()
    behind = steps()
    apart = lemmas_apart(rows)
    clashes = 0
    for path in files((".antt", ".rt")):
        words = set(WORD.findall(read(path)))
        for old in words & rows.keys():
            new = rows[old]
            others = [o for o in together.get(new, []) if o != old and o in words]
            others = [o for o in others if o not in apart.get(path, {})]
            if (new in words and new not in apart.get(path, {}) and not is_function(new, path)) or others:
                clashes += 1
                print(f"look: {path}: {old} becomes {new}, which stands there too {others}", file=sys.stderr)
    if "--check" in sys.argv:
        return clashes
    for path in files(".antt"):
        text = read(path)
        new = turn_antt(text, rows | apart.get(path, {}), behind)
        if new != text:
            with open(path, "w", encoding="utf-8") as f:
                f.write(new)
    for path in files((".rt", ".edit")):
        text = read(path)
        new = turn_rt(text, rows) if path.endswith(".rt") else turn_antt(text, rows, {})
        if new != text:
            with open(path, "w", encoding="utf-8") as f:
                f.write(new)
    if "--table" in sys.argv:
        with open(sys.argv[sys.argv.index("--table") + 1], "w", encoding="utf-8") as f:
            f.write("".join(f"{old}\t{new}\n" for old, new in sorted(rows.items())))
    listed()
    print(f"{len(rows)} names, {clashes} clashes")
    return 0


if __name__ == "__main__":
    sys.exit(main())
