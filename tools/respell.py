#!/usr/bin/env python3
"""Brings the repository's own definitions, lemmas, fields and constructors to snake case: `timeAt` becomes `time_at`, `lemma-1` becomes
`lemma_1`. Run it once at the top, after the port's own script. With --list it only prints the names, and those that would fall together.

Only text of specs and proofs is touched: .antt files, and in .rt files the `ghost use` lines and the clauses. A name that a file takes
from a module that is not this repository's keeps its spelling there. Names of functions, strings, inputs and outputs stay."""

import glob
import os
import re
import sys

NAME = r"[^\s(){}\[\].,;:→λ←≡⌜⌝\"`]+"
DECLARED = re.compile(r"^(?P<indent>\s*)(?:(?:abbrev|unfoldable|pub|data|record|ruleset|mutual)\s+)*(?P<name>" + NAME + r")(?:\s+[({].*?)?\s*:(?:\s|$)")
WORD = re.compile(r"(?<![\w′'₀-₉-])[A-Za-z_][\w′'₀-₉]*(?:-[\w′'₀-₉]+)*")
CRATES = [line.split(":")[0].split()[0] for line in open("crates.txt") if ":" in line.split("#")[0]]


# Names that would fall together with another one: a lemma beside a definition gets `_lem`, a definition beside a local lemma another word.
APART = {
    "in-range": "in_range_lem",
    "no-model": "no_model_lem",
    "no-rule": "no_rule_lem",
    "oneArm": "with_one_arm",
    "planIs": "plan_said",
    "rule-in": "rule_in_lem",
    "rulesIn": "rules_of_file",
    "runOn": "run_through",
    "same-times": "same_times_lem",
    "size-of": "size_of_lem",
    "step_call": "step_call_lem",
    "tight-call": "tight_call_lem",
}


def snake(name):
    if name in APART:
        return APART[name]
    name = re.sub(r"(?<=[a-z0-9])(?=[A-Z])", "_", name).replace("-", "_")
    return name.lower()


def ours(path):
    return re.match(r"Rattle[.·](" + "|".join(CRATES) + r")\b", path)


def declared_in(text):
    for line in text.split("\n"):
        m = DECLARED.match(line)
        if m and not line.strip().startswith("--"):
            for one in m["name"].split():
                yield one
        # fields that share a line, and binders of a record
        m = re.match(r"^\s+pub (" + NAME + r"(?: " + NAME + r")*) :", line)
        if m:
            yield from m[1].split()


def imported(text):
    """The names that a file takes from modules that are not this repository's."""
    foreign = set()
    for m in re.finditer(r"^(?:pub |ghost )*use ([^\s{]+?)\.\{([^}]*)\}", text, re.M):
        if not ours(m[1]):
            foreign.update(x.split(" as ")[0].strip() for x in m[2].split(","))
    return foreign


def clauses(text):
    """The stretches of a .rt file that are ghost text."""
    for m in re.finditer(r"^\s*ghost use [^;]*;", text, re.M):
        yield m.start(), m.end()
    for m in re.finditer(r"\b(?:requires|ensures)\b\*?(?: \w+)? \{", text):
        depth, at = 1, m.end()
        while depth:
            depth += {"{": 1, "}": -1}.get(text[at], 0)
            at += 1
        yield m.end(), at - 1


def respelled(text, names, keep):
    return WORD.sub(lambda m: names[m[0]] if m[0] in names and m[0] not in keep else m[0], text)


def main():
    texts = {}
    for crate in CRATES:
        for f in glob.glob(f"crates/{crate}/**/*", recursive=True):
            if f.endswith((".antt", ".rt")) and "/out/" not in f:
                texts[f] = open(f).read()
    names, taken = {}, {}
    for f, text in texts.items():
        if not f.endswith(".antt") or f.endswith(("Proof.antt", "/Types.antt")):
            continue
        for name in declared_in(text):
            if name not in APART and (not re.match(r"[a-z]", name) or not WORD.fullmatch(name) or re.fullmatch(r"[a-z0-9_]+", name)):
                taken.setdefault(name, set()).add(name)
                continue
            names[name] = snake(name)
            taken.setdefault(names[name], set()).add(name)
    together = {new: olds for new, olds in taken.items() if len(olds) > 1}
    if "--list" in sys.argv:
        for old, new in sorted(names.items()):
            print(old, new)
    for new, olds in sorted(together.items()):
        print("fall together:", new, "from", *sorted(olds), file=sys.stderr)
    if "--list" in sys.argv:
        return
    for f, text in texts.items():
        keep = imported(text)
        if f.endswith(".antt"):
            new = respelled(text, names, keep)
        else:
            new, at = "", 0
            for a, b in sorted(clauses(text)):
                new += text[at:a] + respelled(text[a:b], names, keep)
                at = b
            new += text[at:]
        if new != text:
            open(f, "w").write(new)


main()
