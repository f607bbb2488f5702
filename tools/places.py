#!/usr/bin/env python3
"""Counts in crates/*/src what docs/DESIGN-PASS.md speaks of: a line for each kind of place, and with --list the places.

Usage: python3 tools/places.py [--list] [FOLDER]     (FOLDER: a checkout; this one by default)
"""
import collections
import glob
import os
import re
import sys

listing = "--list" in sys.argv
roots = [a for a in sys.argv[1:] if a != "--list"]
os.chdir(roots[0] if roots else os.path.join(os.path.dirname(os.path.abspath(__file__)), ".."))

# (file, line number, text) of each line of code, without comments.
LINES = [
    (path, number, line.split("//")[0].rstrip())
    for path in sorted(glob.glob("crates/*/src/**/*.rt", recursive=True))
    for number, line in enumerate(open(path, encoding="utf-8"), 1)
]


def say(name, places):
    print(f"{len(places):4} {name}")
    if listing:
        for place in places:
            print("       ", place)


def lines(name, pattern):
    say(name, [f"{path}:{number}: {text.strip()}" for path, number, text in LINES if re.search(pattern, text)])


def functions():
    """(file, name, parameters) of each function."""
    for path in sorted(glob.glob("crates/*/src/**/*.rt", recursive=True)):
        text = re.sub(r"//[^\n]*", "", open(path, encoding="utf-8").read())
        for match in re.finditer(r"\bfn ([a-z_0-9]+)(?:<[^(]*?>)?\(([^{]*?)\)\s*(?:->|\{|\n|$)", text):
            parameters = [p for p in re.split(r",\s*(?![^\[(<]*[\])>])", match.group(2).strip().rstrip(",")) if p.strip()]
            yield path, match.group(1), parameters


print("1. enums, flags, numbers for kinds")
lines("enums of the repository's own", r"^\s*(pub )?enum ")
lines("  of them with a refused variant", r"^\s*Refused\(")
lines("fields and parameters that are a flag", r"^\s+(pub )?[a-z_]+: bool,?$")
lines("functions and fields with a number for a kind or a refusal",
      r"fn .*-> u8|number: u8|kind: (usize|u64)|order: usize|fault: u8")
print("2. twins")
where = collections.defaultdict(list)
for path, name, _ in functions():
    where[name].append(path)
say("names that more than one function has", [f"{n}: {', '.join(p)}" for n, p in sorted(where.items()) if len(p) > 1])
say("functions that only lend room to another, named .._in",
    [f"{p}: {n}" for p, n, _ in functions() if n.endswith("_in") and n != "in_range"])
lines("functions that are a pair by a size", r"fn [a-z_]+_(small|large|32|64|long)\b")
print("3. loops")
lines("while", r"^\s*(while)\b")
lines("loop", r"^\s*loop\b")
lines("for", r"^\s*for\b")
print("4. printing, equality and conversion by hand")
lines("functions that print, compare, copy or convert a value",
      r"fn (same|copy|say|show|wide|wider|unsigned32|signed16|signed32|size_of|bit|larger|least|digit|clear)(_[a-z]+)?\b")
print("5. what travels together")
for most in (12, 9, 8):
    say(f"functions of more than {most} parameters", [f"{len(a)} {p}: {n}" for p, n, a in functions() if len(a) > most])
lines("clauses that say that columns are long enough", r"requires.*\bColumns ")
lines("clauses that say that a slice is as long as another", r"requires.*length [a-z.]+ ≡ length")
lines("clauses that say that three scratch slices are as long as the times", r"requires.*\bSized ")
print("6. parallel arrays, and buffers with a length beside")
lines("parameters that are one of four columns", r"\bp?(xs|ys|zs|ks): &")
lines("parameters that are one of three arrays by job", r"\b(labels|periods|falls): &")
lines("tables with a count beside", r"\[Rule; 1025\]")
print("7. switches")
lines("a number or a flag that says which step to run", r"\border: usize|noted: bool|sparse: bool|mask: u16")
print("8. proofs")
for kind in ("Answers", "Invariants"):
    files = glob.glob(f"crates/*/proofs/**/{kind}.antt", recursive=True)
    print(f"{len(files):4} files {kind}.antt, {sum(len(open(f, encoding='utf-8').readlines()) for f in files)} lines")
files = glob.glob("crates/*/proofs/**/*.antt", recursive=True)
print(f"{len(files):4} files in proofs/, {sum(len(open(f, encoding='utf-8').readlines()) for f in files)} lines")
