#!/usr/bin/env python3
"""What must be believed: the definitions that the contracts of the exported calls and the claims cite, and those that these cite,
down to the kit's own.

believed.py              a table by file, and how many lines that is; the last column counts the other definitions in the file
believed.py names        each of these definitions: file, lines, name
believed.py others       the other definitions in their files: file, lines, name
believed.py twice        names that more than one of these definitions has
believed.py why NAME     by which citations a definition of that name is reached
believed.py kit          what they cite of the kit
believed.py write        writes their number, that of their files and that of their lines into README's sentence

It begins with the functions `pub extern "C" fn` of crates/*_c, those beneath that they hand on to and the public functions that
these call, and with all that stands in the files specs/Claim.antt. A name counts as cited wherever it stands, also where a
variable has it, so the list may be too long and is not too short. (With the names left out that λ, let, patterns and types bind,
the same definitions were reached.)"""
import collections
import glob
import os
import re
import sys

ROOT = os.path.dirname(os.path.dirname(os.path.abspath(__file__)))
NAME = r"[^\s(){}\[\],;.]+"
# A dot with white space behind it ends the variables of a λ and is no path.
WORD = re.compile(rf'"(?:\\.|[^"\\])*"|\[\]|{NAME}|\.\s|\S')
USE = re.compile(r" *(?:(?:pub|unfoldable|ghost) )*use ")
# A definition begins with one of these words, or is a law: a name and its type.
MADE = re.compile(rf"(?:(?:pub|abbrev|unfoldable|opaque) )*(?:(data|record) )?({NAME})(?: |$)")
BEGINS = re.compile(rf"(?:pub|abbrev|unfoldable|opaque|data|record) |{NAME} :(?: |$)")


class Definition:
    """A definition: the lines of its file that it takes, counted from 1, with the comment above it; and its text."""

    def __init__(self, file, kind, name, comment, first):
        self.file, self.kind, self.name, self.comment, self.first, self.text = file, kind, name, comment, first, []
        self.names, self.within = {name}, None

    def last(self):
        return self.first + len(self.text) - 1

    def lines(self):
        return self.last() - self.comment + 1

    def code(self):
        """Its lines that are no comment."""
        return [line for line in self.text if line.strip() and not line.lstrip().startswith(("--", "//"))]

    def said(self):
        """How many of these say what it means: `unfolding` says what the checker may look into."""
        return sum(not line.lstrip().startswith("unfolding ") for line in self.code())

    def place(self):
        return f"{self.file.path}:{self.comment}-{self.last()}"


class File:
    """A file: its lines, what it imports, and its definitions by the names that they give."""

    def __init__(self, path):
        self.path, self.crate = path, path.split("/")[1]
        with open(f"{ROOT}/{path}", encoding="utf-8") as f:
            self.lines = f.read().split("\n")[:-1]
        self.imports, self.modules, self.taken, self.made = {}, {}, set(), []
        for i, line in enumerate(self.lines):
            if USE.match(line):
                end = next(k for k in range(i, len(self.lines)) if "{" not in line or "}" in self.lines[k])
                self.taken |= set(range(i, end + 1))
                self.add_import(" ".join(self.lines[i : end + 1]))
        self.read()
        self.own = {name: d for d in reversed(self.made) for name in d.names}

    def add_import(self, text):
        path, _, inside = USE.sub("", text, count=1).strip(" ;").partition(".{")
        path, _, alias = path.partition(" as ")
        if not inside:
            self.modules[alias or path.rpartition(".")[2]] = path
        for part in filter(None, (p.strip() for p in inside.strip("} ").split(","))):
            old, _, new = part.partition(" as ")
            self.imports[new or old] = (path, old)


class Specs(File):
    """A file of antt, as rt fmt lays it out: what it defines begins at the margin, or two columns behind it below a line `module
    _ .. where`."""

    def read(self):
        d, within, comment, infix = None, None, None, None
        for i, line in enumerate(self.lines):
            inside = within is not None and line.startswith("  ")
            text = line[2:] if inside else line
            top = text[:1] not in (" ", "}", "]")
            if i in self.taken or not text.strip():
                comment = None
            elif text.startswith("--"):
                comment = i if comment is None else comment
            elif text.startswith("infix"):
                infix = i
            elif text.startswith(("module ", "pub mod ")) or top and BEGINS.match(text):
                found, first = MADE.match(text), i if infix is None else infix
                d = Definition(self, found[1], found[2], (first if comment is None else comment) + 1, first + 1)
                d.text, comment, infix = [line] if first == i else [self.lines[first], line], None, None
                within = d if text.startswith("module ") else within if inside else None
                d.within = within if inside else None
                if not text.startswith("pub mod "):
                    self.made.append(d)
            elif d is not None:
                d.text += self.lines[d.last() : i + 1]
                comment = None
                made = re.match(rf"  ((?:{NAME} )+):(?: |$)", text)
                if d.kind == "data" and made:
                    d.names |= set(made[1].split())


class Source(File):
    """A file of code: its types, which antt knows as `declared`, and its functions."""

    def read(self):
        comment = None
        for i, line in enumerate(self.lines):
            found = re.match(r"(?:pub(?:\(crate\))? )?(?:(struct|enum) (\w+)|(?:extern \"C\" )?(fn) (\w+))", line)
            if found:
                d = Definition(self, found[1] or found[3], found[2] or found[4], (i if comment is None else comment) + 1, i + 1)
                end = i if line.endswith((";", "}")) else self.lines.index("}", i)
                d.text = self.lines[i : end + 1]
                self.made.append(d)
            comment = (i if comment is None else comment) if line.startswith(("//", "#[")) else None


FILES, KIT = {}, set()
for made, pattern in ((Specs, "crates/*/specs/**/*.antt"), (Source, "crates/*/src/**/*.rt")):
    for path in sorted(glob.glob(pattern, root_dir=ROOT, recursive=True)):
        FILES[path] = made(path)


def declared(crate, name):
    """The type of that name in a crate's code."""
    sources = [f for f in FILES.values() if isinstance(f, Source) and f.crate == crate]
    return next((f.own[name] for f in sources if name in f.own and f.own[name].kind != "fn"), None)


def find(module, name):
    """What a name of a module stands for; None for the kit's."""
    first, *parts = module.split(".")
    if first == "Rattle" and parts[1:3] == ["specs", "declared"]:
        return declared(parts[0], parts[3])
    file = FILES.get("crates/" + "/".join(parts) + ".antt") if first == "Rattle" else None
    if file is None:
        KIT.add(f"{module}.{name}")
    return scope(file, name) if file else None


def scope(file, name):
    """What a name stands for in a file; an operator may stand there without the places of its operands."""
    for it in (name, f"◌{name}◌"):
        if it in file.own:
            return file.own[it]
        if it in file.imports:
            return find(*file.imports[it])
    return None


def cited(file, text):
    """What a text of a file cites: behind a dot only what stands in the module that is named before it."""
    words = WORD.findall(text)
    for i, word in enumerate(words):
        if i and words[i - 1] == ".":
            module = file.modules.get(words[i - 2])
            yield find(module, word) if module else None
        elif words[i + 1 : i + 2] != ["="]:
            yield scope(file, word)


def clauses(d):
    """The clauses of a function, as one text."""
    first = next((k for k, line in enumerate(d.text) if re.match(r" *(requires|ensures)\b", line)), None)
    return "" if first is None else "\n".join(d.text[first : d.text.index("{")])


def beneath(d):
    """What a definition cites; of a function, what its clauses and the types of its parameters and its result do."""
    if isinstance(d.file, Specs):
        found = [*cited(d.file, "\n".join(d.code())), d.within]
    else:
        text = "\n".join(d.code())
        crates = [d.file.crate, *re.findall(r"\buse (\w+)::", "\n".join(d.file.lines))]
        head = text.partition("\n{")[0] if d.kind == "fn" else text
        found = [declared(crate, name) for name in re.findall(r"\b[A-Z]\w+", head) for crate in crates]
        found += cited(d.file, clauses(d) if d.kind == "fn" else text)
    return [c for c in dict.fromkeys(found) if c is not None and c is not d]


def exported():
    """The exported calls."""
    return [d for f in FILES.values() if f.crate.endswith("_c") for d in f.made if "extern" in "".join(d.text)]


def claims():
    """The claims over the calls."""
    return [d for path, f in FILES.items() if path.endswith(("specs/Claim.antt", "specs/Claims.antt")) for d in f.made]


def roots():
    """What is promised to callers: the exported calls and those beneath them, and the claims."""
    calls = exported()
    for d in calls:
        body = "\n".join(d.text[d.text.index("{") :])
        for crate, module, name in re.findall(r"\b(\w+)::(?:(\w+)::)?(\w+)\(", body):
            low = FILES[f"crates/{crate}/src/{module or 'lib'}.rt"]
            yield low.own[name]
            called = re.findall(r"(?<![:.\w])(\w+)\(", "\n".join(low.own[name].text[low.own[name].text.index("{") :]))
            yield from (low.own[n] for n in called if n in low.own and low.own[n].text[0].startswith("pub fn"))
    yield from calls
    yield from claims()


def reached(begin):
    """Each definition that is reached from these, with what cites it; functions are contracts and not counted."""
    why = dict.fromkeys(begin)
    todo = collections.deque(why)
    while todo:
        d = todo.popleft()
        for c in beneath(d):
            if c not in why:
                why[c] = d
                todo.append(c)
    return why


def table(by_file):
    """The table, and the sums of its columns. A file of code has types alone among these, and no column for its other lines."""
    sums = collections.Counter()
    print("| file | lines | believed: definitions | lines | without comments and `unfolding` | others |")
    print("| --- | --- | --- | --- | --- | --- |")
    for path, ds in by_file.items():
        file, row = FILES[path], [len(ds), sum(d.lines() for d in ds), sum(d.said() for d in ds)]
        row = ["-", *row, "-"] if isinstance(file, Source) else [len(file.lines), *row, len(file.made) - len(ds)]
        sums.update({k: n for k, n in enumerate(row) if n != "-"})
        print("|", " | ".join(map(str, [path, *row])), "|")
    print(f"| in all, {len(by_file)} files |", " | ".join(str(sums[k]) for k in range(5)), "|")
    print(f"\nNames of the kit: {len(KIT)}.")
    for name, begin in (("exported calls", exported()), ("claims", claims())):
        ds = [d for d in reached(begin) if d.kind != "fn"]
        print(f"From the {name} alone: {len(ds)} definitions, {sum(d.said() for d in ds):,} lines.")


def write(by_file):
    """Writes the numbers into README's sentence."""
    ds = [d for ds in by_file.values() for d in ds]
    said = f"{len(ds):,} definitions in {len(by_file)} files, {sum(d.said() for d in ds):,} lines"
    with open(f"{ROOT}/README.md", encoding="utf-8") as f:
        text, n = re.subn(r"[\d,]+ definitions in \d+ files, [\d,]+ lines", said, f.read())
    if n != 1:
        sys.exit("tools/believed.py: README.md has no such sentence, or more than one")
    with open(f"{ROOT}/README.md", "w", encoding="utf-8") as f:
        f.write(text)
    print(said)


def main():
    words = sys.argv[1:] or ["table"]
    why = reached(roots())
    by_file = collections.defaultdict(list)
    for d in sorted((d for d in why if d.kind != "fn"), key=lambda d: (isinstance(d.file, Source), d.file.path, d.first)):
        by_file[d.file.path].append(d)
    believed = [d for ds in by_file.values() for d in ds]
    if words == ["table"]:
        table(by_file)
    elif words == ["names"]:
        print("\n".join(f"{d.place()}: {d.name}" for d in believed))
    elif words == ["others"]:
        files = [FILES[path] for path in by_file if path.endswith(".antt")]
        print("\n".join(f"{d.place()}: {d.name}" for f in files for d in f.made if d not in why))
    elif words == ["twice"]:
        named = collections.defaultdict(list)
        for d in believed:
            named[d.name].append(d)
        for name, ds in sorted(named.items()):
            if len(ds) > 1 and name != "module":
                print(f"{name}: " + ", ".join(d.place() for d in ds))
    elif words == ["kit"]:
        print("\n".join(sorted(KIT)))
    elif words == ["write"]:
        write(by_file)
    elif words[0] == "why" and len(words) == 2:
        for d in believed:
            if words[1] in d.names:
                print(f"{d.place()}: {d.name}")
                while why[d]:
                    d = why[d]
                    print(f"    cited by {d.name}, {d.place()}")
    else:
        sys.exit(__doc__)


main()
