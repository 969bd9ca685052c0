#!/usr/bin/env python3
"""Places of src/ that today's Rattle may say in another form, point by point (docs/DESIGN-PASS.md).

places.py            the number of places of each point
places.py 3          the places of a point, a line each: file, line, name
"""
import collections
import glob
import re
import sys

KEYWORDS = set(
    "as break const continue else enum false fn for if impl in let loop match mod move mut pub ref return self Self struct true type use where while u8 u16 u32 u64 "
    "usize bool".split()
)
ABSENT = {"Failed", "Error", "Refused", "Admitted", "Invalid", "Nowhere", "Unclosed"}


class Function:
    """A function of a file: its name, line, parameters, clauses and body."""

    def __init__(self, path, line, name, head, clauses, body):
        self.path, self.line, self.name, self.clauses, self.body = path, line, name, clauses, body
        inside = head[head.index("(", head.index("fn ")) + 1 : head.rindex(")")]
        self.parameters = [p.strip() for p in re.split(r",\s*(?![^\[<(]*[\]>)])", inside) if ":" in p]

    @property
    def crate(self):
        return self.path.split("/")[1]


def functions(path):
    """The functions of a file, as rt fmt lays them out."""
    lines = open(path).read().split("\n")
    found, i = [], 0
    while i < len(lines):
        m = re.match(r"( *)(?:pub(?:\(crate\))? )?(?:const )?(?:extern \"C\" )?fn (\w+)", lines[i])
        if not m:
            i += 1
            continue
        pad, start, head, clauses = m.group(1), i, "", []
        while True:
            text = lines[i]
            if re.match(r" *(requires|ensures)\b", text):
                clauses.append(text.strip())
            elif clauses and text != pad + "{":
                clauses[-1] += " " + text.strip()
            elif not clauses:
                head += text + " "
            if text == pad + "{" or (text.endswith("{") and not clauses and not re.match(r" *(requires|ensures)\b", text)) or text.endswith("{}") or text.endswith(";"):
                break
            i += 1
        body, i = [], i + 1
        while i < len(lines) and lines[i] != pad + "}" and not lines[start].endswith("{}"):
            body.append(lines[i])
            i += 1
        found.append(Function(path, start + 1, m.group(2), head, clauses, body))
        i += 1
    return found


def sources():
    return sorted(glob.glob("crates/*/src/**/*.rt", recursive=True))


def everything():
    return [f for path in sources() for f in functions(path)]


def blocks(word):
    """Each struct or enum: path, line, name and the lines inside."""
    for path in sources():
        lines = open(path).read().split("\n")
        for i, text in enumerate(lines):
            m = re.match(r"(?:pub(?:\(crate\))? )?%s (\w+).*\{$" % word, text)
            if m:
                end = next(k for k in range(i, len(lines)) if lines[k] == "}")
                yield path, i + 1, m.group(1), [x.strip() for x in lines[i + 1 : end] if not x.strip().startswith("//")]


def point1():
    """Own enums of the shape of Option or Result; structs with a flag beside other fields; constants that number kinds, items,
    codes or passes."""
    for path, line, name, inside in blocks("enum"):
        variants = [x.rstrip(",") for x in inside if re.match(r"[A-Z]\w*", x)]
        loaded = [v for v in variants if "(" in v or "{" in v]
        if ABSENT & {re.match(r"\w+", v).group() for v in variants} or (len(loaded) == 1 and len(variants) > 1):
            yield path, line, "enum " + name
    for path, line, name, inside in blocks("struct"):
        if any(re.match(r"(pub )?\w+: bool,", x) for x in inside):
            yield path, line, "struct " + name
    for path in sources():
        for i, text in enumerate(open(path)):
            m = re.match(r"(?:pub(?:\(crate\))? )?const (\w+): (?:u32|usize) = \d{1,2};", text)
            if m:
                yield path, i + 1, "const " + m.group(1)


def shape(body):
    """A body with its names and numbers taken out."""
    words = re.findall(r"[A-Za-z_]\w*|\d\w*|\S", " ".join(body))
    return tuple(w if w in KEYWORDS or not re.match(r"\w", w) else "_" for w in words)


def point2():
    """Functions whose bodies are equal but for names, types and constants (25 words and more, or one-line conversions), all but
    the first of each group."""
    groups = collections.defaultdict(list)
    for f in everything():
        s = shape(f.body)
        if len(s) >= 25 or (len(s) == 3 and s[1] == "as"):
            groups[s].append(f)
    for s, fs in sorted(groups.items(), key=lambda g: (g[1][0].path, g[1][0].line)):
        for f in fs[1:]:
            yield f.path, f.line, "%s is like %s of %s" % (f.name, fs[0].name, fs[0].path)


def point3():
    """Loops that step a place or an index by hand: every `while` and `loop` but `while let`."""
    for f in everything():
        for text in f.body:
            if re.match(r" *(?:'\w+: )?(while|loop)\b(?! let)", text):
                yield f.path, f.line, f.name


def point4():
    """Equality, order, copying and conversion by hand: functions named so, and bodies that are one cast."""
    names = re.compile(r"^(same_(?!arity)\w+|no_later|copy\w*|clear|clear_from|least|flag|\w+_number|\w+_tag|\w+_value|wide|byte|index|item_number|letter)$")
    for f in everything():
        s = shape(f.body)
        if names.match(f.name) or (len(s) == 3 and s[1] == "as"):
            yield f.path, f.line, f.name


def travelling():
    """For each crate the pairs of parameters that three or more functions share."""
    pairs = collections.defaultdict(list)
    for f in everything():
        ps = sorted(set(f.parameters))
        for i, p in enumerate(ps):
            for q in ps[i + 1 :]:
                pairs[f.crate, p, q].append(f)
    return {k: fs for k, fs in pairs.items() if len(fs) >= 3}


def point5():
    """Functions that share a pair of parameters with two others of their crate; then facts that three or more functions of a
    crate require or ensure."""
    seen = {}
    for (crate, p, q), fs in travelling().items():
        for f in fs:
            seen.setdefault((f.path, f.line, f.name), set()).update((p, q))
    for (path, line, name), ps in sorted(seen.items()):
        yield path, line, "%s(%s)" % (name, ", ".join(sorted(ps)))
    facts = collections.defaultdict(list)
    for f in everything():
        for clause in f.clauses:
            inside = clause[clause.index("{") + 1 : clause.rindex("}")].strip()
            for part in {p.strip().strip("()") for p in inside.split("×")}:
                facts[f.crate, part].append(f)
    for (crate, part), fs in sorted(facts.items(), key=lambda x: (x[0][0], -len(x[1]))):
        if len(fs) >= 3:
            yield fs[0].path, fs[0].line, "fact of %d functions: %s" % (len(fs), part)


def point6():
    """Functions with a lent row and, beside it, how much of it is in use or where it goes on."""
    for f in everything():
        if any(re.match(r"\w+: &(mut )?(\[|\[u32; 11)", p) for p in f.parameters) and any(
            re.match(r"(count|n|at|errors|size|records|m|a|b|base): usize", p) for p in f.parameters
        ):
            yield f.path, f.line, f.name


def point7():
    """Functions that test one value three times and more, to choose among other functions."""
    for f in everything():
        tests = collections.Counter(re.findall(r"^ *(?:\} else )?if ([\w.]+) == [\w:]+ \{", "\n".join(f.body), re.M))
        if any(n >= 3 for n in tests.values()):
            yield f.path, f.line, f.name


def point8():
    """Proofs with answers by position, which answer what the check may find alone."""
    for path in sorted(glob.glob("crates/*/proofs/**/Proof.antt", recursive=True)):
        yield path, 1, "by position"


POINTS = [point1, point2, point3, point4, point5, point6, point7, point8]

if __name__ == "__main__":
    if len(sys.argv) > 1:
        for path, line, name in POINTS[int(sys.argv[1]) - 1]():
            print("%s:%d: %s" % (path, line, name))
    else:
        for i, point in enumerate(POINTS):
            print(i + 1, len(list(point())), point.__doc__)
