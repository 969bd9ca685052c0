#!/usr/bin/env python3
"""Writes the table of times in docs/PROVING.md from a run of the gate.

times_table.py watch LOG [COMMAND..]   runs a command, `rt ci --anew` if none is given, and writes what it says to LOG, and behind
                                       it the times of the checks
times_table.py write LOG [FILE]        writes the table of such a LOG to FILE, else docs/PROVING.md, between two comments, or at
                                       first in place of the table there
times_table.py LOG                     prints that table

`rt ci` tells no times, and says what an edit came to when all is done. So `watch` looks at the checks as they run, five times a
second, and notes of each the crate, whether it is the crate's own or that of an edit, and its processor time with that of the
copies it makes of itself; what is shorter than that is missed. Other programs on the machine hardly count. The lines that it adds
are
    times: CRATE check SECONDS        (proof, build and tests)
    times: CRATE edits SECONDS        (all its edits, with the check that they begin with)
    times: all SECONDS PROCESSORS     (the whole run, by the clock)"""
import os
import re
import subprocess
import sys
import textwrap
import threading
import time

import kit

TICK = os.sysconf("SC_CLK_TCK")
PAGE = f"{kit.ROOT}/docs/PROVING.md"
FROM, TO = "<!-- written by tools/times_table.py -->", "<!-- up to here -->"
WHOLE = "every proof and must-fail edit was done in this run"


def processes():
    """Each process by its number: its parent, when it began, and the seconds of processor time that it and its ended children
    took."""
    found = {}
    for pid in filter(str.isdigit, os.listdir("/proc")):
        try:
            with open(f"/proc/{pid}/stat", encoding="utf-8", errors="replace") as f:
                fields = f.read().rsplit(")", 1)[1].split()
        except OSError:
            continue
        found[int(pid)] = int(fields[1]), fields[19], sum(map(int, fields[11:15])) / TICK
    return found


def prover(pid):
    """The crate that a process checks, and as what; None if it is no check."""
    try:
        with open(f"/proc/{pid}/cmdline", encoding="utf-8", errors="replace") as f:
            words = f.read().split("\0")
        folder = os.readlink(f"/proc/{pid}/cwd")
    except OSError:
        return None
    if os.path.basename(words[0]) != "rattle" or "--crate-name" not in words:
        return None
    return words[words.index("--crate-name") + 1], "edits" if "/rt-edit-" in folder else "check"


def look(command, seen, known):
    """Notes the checks that run below a process: under the process that is one and no other's copy, its time with that of its
    copies."""
    found = processes()
    below, grown = {command}, True
    while grown:
        more = {pid for pid, (parent, _, _) in found.items() if parent in below} - below
        below, grown = below | more, more
    for pid in below - {command}:
        key = pid, found[pid][1]
        known[key] = known.get(key) or prover(pid)
    top = {pid: known.get((pid, at)) for pid, (_, at, _) in found.items()}
    now = {}
    for pid in below - {command}:
        at = first = pid
        while at in found and at != command:
            first, at = at if top.get(at) else first, found[at][0]
        if top.get(first):
            key = first, found[first][1]
            now[key] = now.get(key, 0) + found[pid][2]
    for key, seconds in now.items():
        seen[key] = max(seen.get(key, 0), seconds)


def watch(log, words):
    """Runs a command and writes the log; its exit status."""
    seen, known, begun = {}, {}, time.time()
    with open(log, "w", encoding="utf-8") as out:
        run = subprocess.Popen(words, stdout=subprocess.PIPE, stderr=subprocess.STDOUT, text=True, errors="replace")

        def watching():
            while run.poll() is None:
                look(run.pid, seen, known)
                time.sleep(0.2)

        watcher = threading.Thread(target=watching)
        watcher.start()
        for line in run.stdout:
            print(line, end="", flush=True)
            out.write(line)
        status = run.wait()
        watcher.join()
        sums = {}
        for key, seconds in seen.items():
            sums[known[key]] = sums.get(known[key], 0) + seconds
        for (crate, kind), seconds in sorted(sums.items()):
            out.write(f"times: {crate} {kind} {seconds:.1f}\n")
        out.write(f"times: all {time.time() - begun:.1f} {len(os.sched_getaffinity(0))}\n")
    return status


def minutes(seconds):
    return f"{round(seconds) // 60} min {round(seconds) % 60} s"


def table(text):
    """The table of a log, with a sentence about the whole run."""
    times = {(crate, kind): float(n) for crate, kind, n in re.findall(r"^times: (\w+) (check|edits) ([\d.]+)$", text, re.M)}
    whole = re.search(r"^times: all ([\d.]+) (\d+)$", text, re.M)
    ended = re.search(r"^(\d+) passed, (\d+) failed$", text, re.M)
    if not times or not whole:
        sys.exit("tools/times_table.py: no times stand in this log: `watch` writes them, and `rt ci` by itself tells none")
    if not ended or ended[2] != "0" or WHOLE not in text:
        sys.exit("tools/times_table.py: not the log of a gate that passed with all done in that run (`rt ci --anew`)")
    edits = re.findall(r"^rt: must-fail (\w+)/\S+: refused", text, re.M)
    said = (
        f"The gate from nothing (`rt ci --anew`): {minutes(float(whole[1]))} on {whole[2]} processors, of which its checks took"
        f" {minutes(sum(times.values()))}. {ended[0]}; {len(kit.rows())} crates, {len(edits)} edits. Seconds of processor time of"
        " each crate's check, and of its must-fail edits:"
    )
    lines = [
        *textwrap.wrap(said, 130, break_on_hyphens=False),
        "",
        "| crate | check | edits | seconds each |",
        "| --- | --- | --- | --- |",
    ]
    for crate in kit.rows():
        number, check = edits.count(crate), times.get((crate, "check"))
        each = f"{times.get((crate, 'edits'), 0) / number:.0f}" if number else "-"
        lines.append(f"| {crate} | {'-' if check is None else format(check, '.0f')} | {number} | {each} |")
    return "\n".join(lines)


def written(page, made):
    """A page with the table between its two comments; where they are not there yet, in place of the table of crates that is."""
    block = f"{FROM}\n{made}\n{TO}\n"
    for pattern in (rf"{re.escape(FROM)}\n[^\0]*?{re.escape(TO)}\n", r"^\| crate \| check \|.*\n(?:\|.*\n?)*"):
        text, n = re.subn(pattern, lambda _: block, page, flags=re.M)
        if n == 1:
            return text
    sys.exit(f"tools/times_table.py: the page has no table to replace: write the lines {FROM} and {TO} where it shall stand")


def main():
    verb, *words = sys.argv[1:] or [""]
    if verb == "watch" and words:
        sys.exit(watch(words[0], words[1:] or ["rt", "ci", "--anew"]))
    if verb == "write" and words:
        page = words[1] if len(words) > 1 else PAGE
        with open(words[0], encoding="utf-8") as f:
            made = table(f.read())
        with open(page, encoding="utf-8") as f:
            text = written(f.read(), made)
        with open(page, "w", encoding="utf-8") as f:
            f.write(text)
    elif os.path.isfile(verb) and not words:
        with open(verb, encoding="utf-8") as f:
            print(table(f.read()))
    else:
        sys.exit(__doc__)


main()
