#!/usr/bin/env python3
"""Brings the repository's own names to the spelling of today's Rattle: words in snake case, with no capital and no dash inside.

usage: python3 tools/respell.py    once, at the top of the repository, after the kit's port.py

What is turned: each name that a file of specs/ or of proofs/ has of its own (a definition, a law, a field, a constructor, a bound
variable); in src/ what contracts cite, with the names that `ghost use .. as` gives; in must-fail/ the texts that edits take from
there; on pages and in comments what stands in backquotes. What stays: types and modules, each name of the kit, functions of src/,
strings. A proof that walks the code by hand keeps the names of its goals.
"""
import collections
import glob
import os
import re

OWN = set(line.split(":")[0].strip() for line in open("crates.txt") if line.strip())
NAME = re.compile(r"[^\W\d][\w'-]*")
USE = re.compile(r"\s*(?:pub |ghost )*use ([\w.+'◌-]+?)\.\{(.*)\}")

# Two names of one spelling: the law takes _lem, as the kit's rule for a law that would have its function's name.
LAWS = {"best-from", "blockers-before", "events-by", "events-in", "fires-at", "hint-at", "image-number", "part-rises", "picked-from", "row-holds"}
# These are fields as well as laws: the field keeps the plain spelling.
FIELDS = {"by-blocker", "by-start", "odd-rooms", "starts-final"}
# A law with no argument, which would read as a field.
PLAIN_LAWS = {("crates/machine/proofs/RunsKept.antt", "odd-rooms")}
# Local names that meet a definition of their file.
LOCAL = {("crates/printing/proofs/Stepping.antt", "sets_behind"): "sets_behind_lem"}


def turned(name):
    if re.match(r"[a-z]", name):
        name = re.sub(r"(?<=[a-z0-9])([A-Z])", lambda m: "_" + m.group(1).lower(), name)
    return name.replace("-", "_")


def is_own(path):
    parts = path.split(".")
    return parts[0] == "Rattle" and parts[1] in OWN


def logic_files():
    return sorted(glob.glob("crates/*/specs/**/*.antt", recursive=True) + glob.glob("crates/*/proofs/**/*.antt", recursive=True))


def names():
    """The names to turn: those of the files of specs/ and proofs/ that the kit does not have, and what contracts call them."""
    kit, own = set(), set()
    for path in logic_files():
        for line in open(path):
            if line.strip().startswith("--"):
                continue
            use = USE.match(line)
            if use and not is_own(use.group(1)):
                kit.update(item.split(" as ")[0].strip() for item in use.group(2).split(","))
            if use and not is_own(use.group(1)) or path.endswith("Proof.antt"):
                continue
            own.update(NAME.findall(line))
    for path in glob.glob("crates/*/src/**/*.rt", recursive=True):
        for line in open(path):
            use = USE.match(line)
            if use and is_own(use.group(1)):
                own.update(item.split(" as ")[1].strip() for item in use.group(2).split(",") if " as " in item)
    return {name: turned(name) for name in own if name not in kit and turned(name) != name and not re.match(r"(Need|After|At)-", name)}


def turn(text, path, table):
    def one(match):
        name = match.group(0)
        if (path, name) in LOCAL:
            return LOCAL[path, name]
        if name not in table:
            return name
        if name in LAWS or (path, name) in PLAIN_LAWS:
            return table[name] + "_lem"
        if name in FIELDS and "/specs/" not in path and path.endswith(".antt"):
            before, after = text[: match.start()], text[match.end() :]
            if not before.endswith(".") and not after.startswith(" ="):
                return table[name] + "_lem"
        return table[name]

    return NAME.sub(one, text)


def quoted(text, path, table):
    return re.sub(r"`[^`\n]*`", lambda m: turn(m.group(0), path, table), text)


def respell(path, table):
    text = open(path).read()
    lines = []
    for line in text.split("\n"):
        if path.endswith(".md"):
            lines.append(quoted(line, path, table))
        elif path.endswith(".edit"):
            lines.append(turn(line, path, table) if re.match(r"(old|new):", line) else quoted(line, path, table))
        elif re.match(r"\s*(--|//)", line):
            lines.append(quoted(line, path, table))
        else:
            lines.append(turn(line, path, table))
    new = "\n".join(lines)
    if new != text:
        open(path, "w").write(new)


def main():
    table = names()
    by_new = collections.defaultdict(list)
    for name, new in sorted(table.items()):
        by_new[new].append(name)
    for new, old in sorted(by_new.items()):
        if len(old) > 1:
            print("fall together:", " ".join(old), "->", new)
    pages = ["README.md"] + sorted(glob.glob("docs/**/*.md", recursive=True))
    sources = sorted(glob.glob("crates/*/src/**/*.rt", recursive=True))
    edits = sorted(glob.glob("crates/*/must-fail/*.edit"))
    for path in logic_files() + sources + edits + pages:
        respell(path, table)
    print(len(table), "names turned")


main()
