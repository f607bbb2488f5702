#!/usr/bin/env python3
"""What the gate checks before `rt ci`: things that no proof sees. Run it in any folder; the status is 1 where something is not so.

- The stored output of each test program is what tools/reference.py derives.
- No public call has a `requires`: those of `planner`, its own and the ones that it passes on, the converter, those that `marlinfray`
  exports, the report, the session, and those of `commands`."""

import glob
import os
import re
import subprocess
import sys

PROGRAMS = ("examples", "calls", "limits", "small_books", "latest", "convert", "board", "board_sessions")
wrong = []


def outputs():
    for name in PROGRAMS:
        derived = subprocess.run([sys.executable, "tools/reference.py", name], capture_output=True)
        if derived.returncode or derived.stdout != open(f"crates/{name}/stdout", "rb").read():
            wrong.append(f"crates/{name}/stdout is not what the reference derives; to write it: python3 tools/reference.py {name} > crates/{name}/stdout")


def source(crate):
    """The text of a crate's functions, without comments."""
    return re.sub(r"//[^\n]*", "", "\n".join(open(f).read() for f in sorted(glob.glob(f"crates/{crate}/src/*.rt"))))


def contract(text, start):
    """What stands between a function's name and its body: the clauses, each in braces, and then the body's brace."""
    at = text.index(")", start)
    while True:
        clause = re.compile(r"[^{]*?\b(requires|ensures)\b[^{]*\{").match(text, at)
        if not clause:
            return text[start:at]
        depth, at = 1, clause.end()
        while depth:
            depth += {"{": 1, "}": -1}.get(text[at], 0)
            at += 1


def functions(crate):
    """The public functions of a crate, by name."""
    text = source(crate)
    return {m[1]: contract(text, m.end()) for m in re.finditer(r'\bpub (?:extern "C" )?fn (\w+)', text)}


def entry_points():
    calls = {f"planner::{name}": c for name, c in functions("planner").items()}
    lib = open("crates/planner/src/lib.rt").read()
    modules = re.findall(r"^mod (\w+);", lib, re.M)
    for crate, path, names in re.findall(r"^pub use (\w+)((?:::\w+)*?)::(\{[^}]*\}|\w+);", lib, re.M):
        for name in re.findall(r"\w+", names):
            if name[0].islower() and crate not in modules:
                calls[f"{crate}{path}::{name}"] = functions(crate)[name]
    calls.update({f"converter::{name}": c for name, c in functions("converter").items()})
    calls.update({f"marlinfray::{name}": c for name, c in functions("marlinfray").items()})
    calls["report::report"] = functions("report")["report"]
    calls["session::session"] = functions("session")["session"]
    calls.update({f"commands::{name}": c for name, c in functions("commands").items()})
    calls["maxatom::Rule::class"] = functions("maxatom")["class"]
    if len(calls) < 20:
        wrong.append(f"only {len(calls)} public calls were found: tools/gate.py does not read the source as it is written")
    for name, clauses in sorted(calls.items()):
        if re.search(r"\brequires\b", clauses):
            wrong.append(f"{name} is public and has a `requires`: let it refuse what it cannot answer")
        if not re.search(r"\bensures\b", clauses):
            wrong.append(f"{name} is public and ensures nothing")


os.chdir(os.path.join(os.path.dirname(os.path.abspath(__file__)), ".."))
outputs()
entry_points()
for line in wrong:
    print("gate: " + line)
sys.exit(1 if wrong else 0)
