#!/usr/bin/env python3
"""Whether crates.txt lists of each crate the libraries that its files name, and no others.

crates.py            prints each line of crates.txt that should be another, as it should be; exit status 1 if there are any
crates.py --write    writes them

A file names a library where a path begins with it (`lexer::tokenize`, `use lexer::keyword`), in an import
(`Rattle.lexer.specs.Tokens`), or in the text that an edit puts in. What a library of the list needs in turn need not be listed:
rt finds it. Libraries of the kit stay as they are listed. The libraries of a line follow one another as the lines do."""
import glob
import os
import re
import sys

import kit

# A comment, a text or a character of a source.
NO_CODE = re.compile(r"""//[^\n]*|b?"(?:\\.|[^"\\])*"|b?'(?:\\.|[^'\\\n])'""", re.S)


def files(crate, pattern):
    """The texts of a crate's files, without what is built."""
    for path in glob.glob(f"{kit.ROOT}/crates/{crate}/{pattern}", recursive=True):
        if "/out/" not in path:
            with open(path, encoding="utf-8") as f:
                yield f.read()


def of_source(text):
    """The names that a source may mean a library by."""
    code = NO_CODE.sub(" ", text)
    return set(re.findall(r"(?<![\w:.])(\w+)(?=::)|\bRattle\.(\w+)\.|\buse (\w+)(?=;| as )", code))


def named(crate, crates):
    """The crates that a crate's files name."""
    sources, found = list(files(crate, "src/**/*.rt")), set()
    for text in sources:
        found |= {n for names in of_source(text) for n in names}
    for text in files(crate, "must-fail/*.edit"):
        found |= {n for line in re.findall(r"(?m)^new: (.*)$", text) for names in of_source(line) for n in names}
    modules = {m for text in sources for m in re.findall(r"\bmod (\w+)", NO_CODE.sub(" ", text))}
    for text in files(crate, "**/*.antt"):
        found |= set(re.findall(r"\bRattle\.(\w+)\.", re.sub(r"(?m)(?:^|\s)--.*", "", text)))
    return (found & crates) - modules - {crate}


def main():
    path = f"{kit.ROOT}/crates.txt"
    with open(path, encoding="utf-8") as f:
        lines = f.read().split("\n")
    rows, made, differ = kit.rows(), [], 0
    for line in lines:
        if not line.partition("#")[0].strip():
            made.append(line)
            continue
        left, crate = line.partition(":")[0], line.split(":")[0].split()[0]
        uses = named(crate, set(rows))
        others = [n for n in rows[crate] if n not in rows]
        new = f"{left}: {' '.join([n for n in rows if n in uses] + others)}".rstrip()
        if new.split() != line.split():
            differ = 1
            print(new)
        made.append(new)
    if sys.argv[1:] == ["--write"]:
        with open(path, "w", encoding="utf-8") as f:
            f.write("\n".join(made))
        differ = 0
    sys.exit(differ)


if __name__ == "__main__":
    main()
