#!/usr/bin/env python3
"""Bare numbers of the format in crates/*/src, so that it can be counted whether each has one home.

house_numbers.py           a table: for each group how many numbers it has, in how many places and files, and how many have one
                           place, a named one
house_numbers.py GROUP     the numbers of a group, each with its places: file, line, text; a place that gives the number a name is
                           marked with *
house_numbers.py rest      the numbers above 2 that no group takes, in the same way

A place gives a name if it is a constant, a case of an enum that is numbered, or a case of a table of names. Comments, contracts,
strings and ghost lines are left out, and the programs that only try the crates (replay, lexer_main, state_names_main, list_cases,
list_faults). The groups are the rules below: a place belongs to the first rule that its line fits, in the files that the rule
names."""
import collections
import glob
import os
import re
import sys

ROOT = os.path.dirname(os.path.dirname(os.path.abspath(__file__)))
TRIALS = "replay|lexer_main|state_names_main|list_cases|list_faults"
N = r"(0x[0-9A-Fa-f_]+|\d[\d_]*)"
SHEET = "form|form_lists|form_rules|list_lines|sheet|reader|state_names"
ABOVE = "(?!chars$|lexer$|emit$|form_strings$).*"
# Group, crates, and what stands around the number in its line.
RULES = [
    ("keyword", ABOVE + "|lexer", r"\b(0x11_?00[0-9A-Fa-f]{2})\b"),
    ("keyword", "lexer", rf"[(\[]{N}, \*b\""),
    ("keyword", "parser", rf"{N}(?= (?:\| \w+ )?=> Some\(ItemKind)"),
    ("letter of a direction", ABOVE, r"\b(0x4C|0x52|0x4E)\b"),
    ("kind of a token or an entry", "lexer|assembler", rf"const (?:BLANK|UNTOLD|LONG_WORD|ITEM|FAILED)\b.*= {N}"),
    ("kind of a token or an entry", ".*", rf"\bkind(?:\(\))? (?:==|!=|<|<=) {N}"),
    ("kind of an item", ".*", rf"\bfirst\[{N}\]|\[\w+; {N}(?<=11)\]"),
    ("code of a diagnostic", "diag", rf"^ +[A-Z]\w+ = {N},"),
    ("code of a diagnostic", ".*", rf"\b(?:error|failure|duplicate)\({N},|\bcode [!=]= {N}"),
    ("number of a refusal", "reader_answer|writer_answer", rf"Self::\w+(?:\(_\))? => ([1-9]),|const DIAGNOSTICS\b.*= {N}"),
    ("words of an answer", "reader_answer|writer_answer", rf"const \w+_WORDS\b.*= {N}|\bwords\[{N}(?:\.\.)?\]"),
    ("no place", ".*", r"\b(0xffff_?ffff|4294967295)(?:u32)?\b"),
    ("words of a diagnostic", ".*", rf"chunks_exact\({N}\)|\[(?:0u32|u32); {N}(?<=5)\]|log\.len\(\) / {N}"),
    ("words of a diagnostic", ".*", rf"\b{N}(?<=5) \* (?:errors|i|count)\b"),
    ("words of a diagnostic", "diag", rf"\blog\[o \+ {N}\]"),
    ("words of a diagnostic", "list_lines", rf"related\(out, place_at\(words, {N}\)"),
    ("words of a token, rows of work", ".*", rf"\b{N}(?<=[45]) \* (?:i|n|at|base|size|tokens\.count)\b|words\.len\(\) / {N}"),
    ("words of a token, rows of work", "lexer|tokens|assembler", rf"\bwork\[o \+ {N}\]"),
    ("limit", "(?!chars$).*", rf"const (?:MAX_\w+|RECORDS|\w+_WORDS|\w+_BYTES)\b.*= {N}|\b(4_?194_?304|0x40_?0000|262_?144)\b"),
    ("limit", ".*", rf"\b{N} \* (?:n|text\.len\(\)) \+ {N}"),
    ("limit", "assembler|lexer|reader_head|infer", r"\b(25[56])\b"),
    ("offset in the sheet", SHEET, rf"(?:place_at|word|after)\([\w.]+, (?:\d \* \w+(?: \+ )?)?{N}\)|as_chunks::<{N}>"),
    ("offset in the sheet", SHEET, rf"\bmembers\(\w+, \w+, {N}\)|\b{N} \* (?:i|k|n|arity|self\.tapes|word)\b"),
    ("offset in the sheet", SHEET, rf"\b{N}(?<=11) \+ |\b{N} \* (?:[\w.]*counts|n)\.\w+"),
    ("offset in the sheet", SHEET, rf"(?:codes|symbols)\([^,]*, (?:after\(.*?\)|\w+), {N}, {N}, "),
    ("place of a token in an item", ABOVE, rf"\b(?:at|e|line|from|to|f|next|write|i|s|p\.from|p\.write|self\.line) (?:\+|\+=) {N}(?<=[2-9])"),
    ("place of a token in an item", "reader_head", rf"\b(?:said|place_at)\(tokens, (?:f|first\[\d\]), {N}\)"),
    ("UTF-8", "chars|emit", r"\b(0x80|0x[C-F][0-9A-F]|64|4096|262144|0x800|0x10000|0xD800|0xE000|0x110000)\b(?!\.\.=)"),
    ("character", ".*", r"\b(0x[0-9A-Fa-f_]{2,6})\b|\bc [!=]= (10)\b|^ *(\d+) => out|Some\((\d+)\),"),
]
NAMED = re.compile(r"\bconst \w+: |^[A-Z]\w* = \d+,|\*b\"|=> Some\(ItemKind|^Self::\w+(?:\(_\))? => ")


def lines():
    """The lines of code that may hold a number: path, line, text."""
    for path in sorted(glob.glob("crates/*/src/**/*.rt", root_dir=ROOT, recursive=True)):
        if re.fullmatch(TRIALS, path.split("/")[1]):
            continue
        in_clause = False
        with open(f"{ROOT}/{path}", encoding="utf-8") as f:
            for i, line in enumerate(f, 1):
                text = re.sub(r"//.*", "", line).rstrip()
                in_clause = (in_clause or re.match(r" *(requires|ensures)\b", text) is not None) and text.strip() != "{"
                if not in_clause and not re.match(r" *(?:(?:pub )?ghost |#\[)", text):
                    yield path, i, text


def places():
    """Each number with its group: group, value, path, line, text."""
    for path, i, text in lines():
        plain = re.sub(r'b?"(?:\\.|[^"\\])*"', lambda m: ('b"' if m[0][0] == "b" else '"') + " " * (len(m[0]) - 2 - (m[0][0] == "b")) + '"', text)
        taken = set()
        for group, crates, pattern in RULES:
            if re.fullmatch(crates, path.split("/")[1]):
                for m in re.finditer(pattern, plain):
                    for k in range(1, len(m.groups()) + 1):
                        if m[k] and m.start(k) not in taken:
                            taken.add(m.start(k))
                            yield group, int(m[k].replace("_", ""), 0), path, i, text.strip()
        for m in re.finditer(rf"(?<![\w.]){N}(?:u8|u16|u32|u64|usize)?(?!\w)", plain):
            if m.start(1) not in taken and int(m[1].replace("_", ""), 0) > 2:
                yield "rest", int(m[1].replace("_", ""), 0), path, i, text.strip()


def main():
    groups = collections.defaultdict(lambda: collections.defaultdict(list))
    for group, value, *place in places():
        groups[group][value].append(place)
    wanted = " ".join(sys.argv[1:])
    if wanted in groups:
        for value, found in sorted(groups[wanted].items()):
            print(f"{value} ({value:#x}): {len(found)}")
            for path, i, text in found:
                print(f"  {'*' if NAMED.search(text) else ' '} {path}:{i}: {text}")
    elif wanted:
        sys.exit(__doc__)
    else:
        print("| group | numbers | places | files | of one place, with a name |")
        print("| --- | --- | --- | --- | --- |")
        for group in [*dict.fromkeys(rule[0] for rule in RULES), "rest"]:
            found = [p for ps in groups[group].values() for p in ps]
            one = sum(len(ps) == 1 and NAMED.search(ps[0][2]) is not None for ps in groups[group].values())
            print(f"| {group} | {len(groups[group])} | {len(found)} | {len({p[0] for p in found})} | {one} |")


main()
