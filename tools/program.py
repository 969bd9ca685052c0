"""A program of this repository, proved and built before it runs: what tools/list and tools/run share.

The program and each crate beneath it are proved and built first, lowest first, where they changed since the last time. Meanwhile
standard error says which crate of how many is at work, and the time so far. Standard output has what the program prints alone,
and the status is the program's. What `rt` says stands in target/PROGRAM.out; where a crate does not pass, the end of that is
shown and the status is 1.
"""
import glob
import os
import shutil
import subprocess
import sys
import time

if not shutil.which("rt"):
    sys.exit(f"{sys.argv[0]}: there is no rt on the path: install the Rattle toolchain first")
import kit


def is_new(crates, built):
    """Whether the program stands there and is newer than the toolchain and all files that it is made of."""
    if not os.path.isfile(built):
        return False
    made_of = [f"{kit.HOME}/bin/rt", f"{kit.ROOT}/crates.txt"]
    for name in crates:
        for folder in ("src", "specs", "proofs"):
            made_of += glob.glob(f"{kit.ROOT}/crates/{name}/{folder}/**/*", recursive=True)
    return max(map(os.path.getmtime, made_of)) < os.path.getmtime(built)


def at_work(crates, begun):
    """The number of the crate at work: behind the last whose library was written since `begun`. `rt` writes them lowest first."""
    done = 0
    for number, name in enumerate(crates, 1):
        library = f"{kit.ROOT}/crates/{name}/out/rlib"
        if os.path.isfile(f"{library}/stamp") and os.path.getctime(library) >= begun:
            done = number
    return min(done + 1, len(crates))


def show(number, crates, spent):
    """Says how far the proving is: over the last line on a terminal, else in a line of its own."""
    line = f"crate {number} of {len(crates)}, {spent // 60} min {spent % 60:02} s so far: {crates[number - 1]}"
    is_terminal = sys.stderr.isatty()
    print(f"\r\033[K{line}" if is_terminal else line, end="" if is_terminal else "\n", file=sys.stderr, flush=True)


def build(crates, log):
    """Has the crates proved and built, and answers whether they were. `rt` builds a program to run it: here on no text."""
    begun, shown = time.time(), 0
    how = {"cwd": f"{kit.ROOT}/crates/{crates[-1]}", "stdin": subprocess.DEVNULL, "stdout": log, "stderr": log}
    with subprocess.Popen(["rt", "run"], **how) as ran:
        while ran.poll() is None:
            number = at_work(crates, begun - 1)
            if number != shown or sys.stderr.isatty():
                show(number, crates, int(time.time() - begun))
            shown = number
            try:
                ran.wait(1)
            except subprocess.TimeoutExpired:
                pass
    if sys.stderr.isatty():
        print("\r\033[K", end="", file=sys.stderr, flush=True)
    return ran.returncode == 0


def run(name, arguments, text):
    """Runs a program on a text, built first if need be, and answers its status."""
    built = f"{kit.ROOT}/crates/{name}/out/{name}"
    said = f"{kit.ROOT}/target/{name}.out"
    crates = [*kit.below(name, kit.rows()), name]
    if not is_new(crates, built):
        os.makedirs(os.path.dirname(said), exist_ok=True)
        with open(said, "w+", encoding="utf-8", errors="replace") as log:
            if not build(crates, log):
                log.seek(0)
                sys.stderr.writelines(log.readlines()[-20:])
                sys.exit(f"{sys.argv[0]}: not proved; all that rt said stands in {os.path.relpath(said)}")
    return subprocess.run([built, *arguments], stdin=text, check=False).returncode


def opened(arguments):
    """The file that one argument names, or standard input where there is none."""
    try:
        return open(arguments[0], "rb") if arguments else sys.stdin
    except OSError as fault:
        sys.exit(f"{sys.argv[0]}: {fault}")
