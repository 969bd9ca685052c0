"""What the tools here need of the installed kit: where it is, what crates.txt says, and the words by which its `rattle` is given
the crates below one.

tools/kit.py CRATE prints, one to a line, the words that `rattle check` and `rattle build` take for a crate whose libraries are
built."""
import os
import re
import shutil
import sys

HOME = os.path.dirname(os.path.dirname(os.path.realpath(shutil.which("rt"))))
ROOT = os.path.dirname(os.path.dirname(os.path.abspath(__file__)))
# The program logic, and the core and standard library as a crate is given them.
LOGIC = ["--antt-project", f"{HOME}/rattle/logic/antt-project.json", "--logic-built", f"{HOME}/logic_built"]


def rows():
    """What crates.txt says: the libraries of each crate."""
    with open(f"{ROOT}/crates.txt", encoding="utf-8") as f:
        lines = [line.split("#")[0].partition(":") for line in f]
    return {left.split()[0]: right.split() for left, _, right in lines if left.strip()}


def below(crate, deps):
    """The crates of the repository that one stands on, lowest first."""
    found = []
    for name in deps[crate]:
        if name in deps:
            found += [n for n in [*below(name, deps), name] if n not in found]
    return found


def extern(names):
    """The words that pass libraries of the kit as built."""
    words = ["-L", f"dependency={HOME}/rlibs"]
    for name in ["core", "std", *names]:
        words += ["--extern", f"{name}={HOME}/rlibs/{name}.rlib"]
    return words


def sources(crates, deps):
    """The words that pass crates of the repository as source."""
    words = []
    for name in crates:
        words += ["--lib", f"{name}:{','.join(['core', 'std', *deps[name]])}={ROOT}/crates/{name}/src/lib.rt"]
    return words


def kit_sources(names):
    """The words that pass libraries of the kit as source, with those that they stand on."""
    words, names = [], list(dict.fromkeys(names))
    for name in names:
        with open(f"{HOME}/rlibs/{name}.rlib/format", encoding="utf-8") as f:
            uses = re.findall(r"^dep (\w+)$", f.read(), re.M)
        names += [n for n in uses if n not in names]
        folder = "examples/check" if name == "check" else name
        words += ["--lib", f"{name}:{','.join(uses)}={HOME}/rattle/{folder}/src/lib.rt"]
    return words


def over_built(crate):
    """The words for a crate over the libraries that `rt` built below it; run in the crate's folder."""
    deps = rows()
    root = "src/main.rt" if os.path.isfile(f"{ROOT}/crates/{crate}/src/main.rt") else "src/lib.rt"
    words = ["--crate-name", crate, root, *extern([n for n in deps[crate] if n not in deps]), *LOGIC]
    for name in below(crate, deps):
        folder = f"{ROOT}/crates/{name}/out/rlib"
        words += ["--extern", f"{name}={folder}/{name}.rlib"] if name in deps[crate] else ["-L", f"dependency={folder}"]
    return words


if __name__ == "__main__":
    print("\n".join(over_built(sys.argv[1])))
