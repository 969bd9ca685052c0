#!/usr/bin/env python3
"""Whether what the documents name is there: paths and names.

names_in_docs.py [FILE..]: prints file, line and word of each path that leads to no file and of each name in backquotes that
nothing in crates/, oracle/src or tools/ has, in the files given or else in README.md, NOTICE, CONTRIBUTING.md, oracle/README.md
and docs/, where docs/PORT.md, docs/DESIGN-PASS.md, docs/LOOK-BACK.md and the notes in docs/changes are records of the past and left
out unless they are given; and each crate that the table of docs/DESIGN.md and crates.txt do not both have. Exit status 1 if there
are any.

A path begins at the top of the repository, in a crate's folder (`specs/Meaning.antt`, `reader_answer/specs/Answer`), in the
document's own, or with a letter that the document sets for a crate (`L is crates/language`); .antt and .rt may be left out, and
NAME, CRATE, NN and the like stand for any. A name is a word of letters as Rust and antt have them, also with :: or . between such
words, or in front of arguments in parentheses. Where the name of a crate, of its letter or of a file of antt stands right before
names (`Layout` before `head_of`, `or_none`), they must be there. Comments are no place where a name is."""
import collections
import glob
import os
import re
import sys

ROOT = os.path.dirname(os.path.dirname(os.path.abspath(__file__)))
RECORDS = re.compile(r"docs/(?:PORT|DESIGN-PASS|LOOK-BACK|changes/\d.*)\.md")
TOPS = r"crates|tools|docs|oracle|examples|specs|proofs|src|must-fail|data|\.ci"
PATH = re.compile(rf"(?<![\w/.~-])((?:\.\./)*(?:\w+/)??(?:{TOPS})(?:/[\w.*+-]+)+)")
LETTERED = re.compile(r"(?<![\w/])[A-Z]/(?:specs|proofs|src)/[\w./*-]+")
NAME = r"[A-Za-z_]\w*(?:-\w+)*"
# Parts of a path or a name that stand for any.
ANY = "(?<![A-Za-z])(?:NAME|CRATE|FUNCTION|FILE|DIR|NN)(?![A-Za-z])"
SPAN = re.compile(r"`([^`\n]+)`")
# Paths of the original's repository and of the planners', of what is built, and one that is named because it can't be.
ELSEWHERE = ("crates/turing-core/", "crates/turing-bb/", "../crates/list/out/", "oracle/target/", "proofs/Kinds.antt")
# What the source has and the port left behind, a type of C, and a text that is no name.
ALLOWED = {"Checker", "builder", "size_t", "aaaabbbbcccc"}


def words_of(path):
    """The words of a file without the lines that are comments, whole and without their hyphens."""
    comment = {".antt": "--", ".py": "#"}.get(os.path.splitext(path)[1], "//")
    with open(f"{ROOT}/{path}", encoding="utf-8") as f:
        kept = "".join(line for line in f if not line.lstrip().startswith(comment))
    return set(re.findall(NAME, kept)) | set(re.findall(r"\w+", kept))


def known():
    """The names that a crate has, and a file of antt by its name alone; those of oracle/src and tools/, but for this one, stand
    under the empty word."""
    places = collections.defaultdict(set)
    for path in glob.glob("**/*", root_dir=ROOT, recursive=True):
        top, *rest = path.split("/")
        is_made = "/out/" in path or "/target/" in path
        is_left_out = top not in ("crates", "oracle", "tools") or is_made or os.path.basename(__file__) in path
        if is_left_out or not os.path.isfile(f"{ROOT}/{path}"):
            continue
        stem, end = os.path.splitext(rest[-1])
        names = {rest[0], *rest[1:], stem}
        if end in (".rt", ".antt", ".rs", ".py", ".toml") or top == "tools":
            names |= words_of(path)
        for place in {rest[0] if top == "crates" else "", stem if end == ".antt" else ""}:
            places[place] |= names
    return places


def is_path(path, document, letters):
    """Whether a path leads to a file or a folder; of one with a part that stands for any, the folder above that part must be
    there."""
    path = re.split(rf"/[^/]*{ANY}", path)[0]
    first, _, rest = path.partition("/")
    places = [path, f"crates/{path}", f"crates/*/{path}", f"{os.path.dirname(document)}/{path}"]
    places += [f"{letters[first]}/{rest}"] if first in letters else []
    return any(glob.glob(f"{ROOT}/{p}{end}") for p in places for end in ("", ".antt", ".rt"))


def names_in(text):
    """The names that a text in backquotes says; none where it is no name, or a path of a proof (`c.args`), or stands for any
    (`invariant_of-NAME`)."""
    text = re.sub(r"\((?:[\w, &.]|\.\.)*\)$", "", text)
    if not re.fullmatch(rf"{NAME}(?:(?:::|\.){NAME})*", text) or text.startswith("c.") or re.search(ANY, text):
        return []
    return re.split(r"::|\.", text)


def stale(document, places):
    """Each stale word of a document, with its line."""
    with open(f"{ROOT}/{document}", encoding="utf-8") as f:
        text = f.read()
    everywhere = set().union(*places.values())
    letters = dict(re.findall(r"\b([A-Z])(?: is)? (crates/\w+)", text))
    for i, line in enumerate(text.split("\n"), 1):
        for path in PATH.findall(line) + LETTERED.findall(line):
            path = path.rstrip(".,-")
            if not path.startswith(ELSEWHERE) and not is_path(path, document, letters):
                yield i, path
        place, end = None, 0
        for m in SPAN.finditer(line):
            between = line[end : m.start()]
            before = re.search(r"(\w+)(?:\.antt|\.rt)? $", between)
            if before:
                place = before[1] if before[1] in places else letters.get(before[1], "").rpartition("/")[2]
            elif between != ", ":
                place = None
            has, end = places[place] if place else everywhere, m.end()
            for name in names_in(m[1]):
                if name not in has and name not in ALLOWED:
                    yield i, (f"{place} " if place else "") + f"`{m[1]}`" + (f" ({name})" if name != m[1] else "")


def rows_missing():
    """What the table of crates in docs/DESIGN.md and crates.txt do not both have."""
    with open(f"{ROOT}/docs/DESIGN.md", encoding="utf-8") as f:
        table = f.read().partition("\n| crate |")[2].partition("\n\n")[0]
    named = set(re.findall(r"\w+", " ".join(re.findall(r"^\| ([\w, ]+) \|", table, re.M))))
    with open(f"{ROOT}/crates.txt", encoding="utf-8") as f:
        listed = set(re.findall(r"^(\w+)[^#\n]*:", f.read(), re.M))
    return sorted(named ^ listed)


def main():
    documents = ["README.md", "NOTICE", "CONTRIBUTING.md", "oracle/README.md"]
    documents += sorted(glob.glob("docs/**/*.md", root_dir=ROOT, recursive=True))
    places, found = known(), []
    for document in sys.argv[1:] or [d for d in documents if not RECORDS.fullmatch(d) and os.path.isfile(f"{ROOT}/{d}")]:
        found += [f"{document}:{line}: {word}" for line, word in stale(document, places)]
    if not sys.argv[1:]:
        found += [f"docs/DESIGN.md: crate {name} is not both in its table and in crates.txt" for name in rows_missing()]
    print("\n".join(found), end="\n" if found else "")
    sys.exit(1 if found else 0)


main()
