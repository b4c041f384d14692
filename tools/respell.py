#!/usr/bin/env python3
"""Brings the definitions and lemmas of this repository to Rattle's spelling: words in snake case, a prime as an apostrophe.

usage: python3 tools/respell.py [FOLDER]      in a tree that port.py has just turned

Only names that specs/ and the lemma files of proofs/ declare are turned, wherever they stand: in .antt and .rt files and in
must-fail edits. Functions of src/ and the names that Rattle makes keep theirs. It stops where two names would fall together.
"""
import collections
import os
import re
import sys

TOKEN = re.compile(r"[A-Za-z_][\w'′]*(?:-[\w'′]+)*-?")
IMPORTED = re.compile(r"use (?:Prim|native|mathlib|borrow|lib|denote|specs|Rattle\.(?:std|core|io|libc))\b[\w.]*\.\{([^}]*)\}")
DECLARED = re.compile(r"\s*(?:\| )?(?:abbrev |unfoldable )?(?:pub )?(?:data |record |ruleset |module )?([a-z][\w'′-]*) :(?!:)")
# constructors of one type that share a line, and names that a proof gives a step
TOGETHER = re.compile(r"\s*((?:[a-z][\w'′-]* )+):(?!:)")
STEP = re.compile(r"\blet ([a-z][\w'′-]*) (?=[:=])")
# where plain turning would fall together with another name, or would keep a word of the old library
OTHERWISE = {
    "held_in": "held_in_lem",
    "in_order": "in_order_lem",
    "line-of": "line_of_lem",
    "line_read": "line_read_lem",
    "one_line": "one_line_lem",
    "sentBack": "sent_back_as",
}
# variables whose names have dashes or capitals
BOUND = {
    "behind-cas",
    "behind-containment",
    "behind-ground",
    "behind-kind",
    "behind-number",
    "behind-pounds",
    "behind-state",
    "digits-but-one",
    "not-refused",
    "register-told",
}
# they fall together with names of crates that do not see them
APART = {"at_head", "last_line", "sulfur_dioxide", "too_long"}

# a tactic has this name now, so no clause and no file of specs/ may have it
TAKEN = (re.compile(r"\bground\b"), "topography")


def files(root, ends):
    for folder, dirs, names in os.walk(os.path.join(root, "crates")):
        dirs[:] = sorted(d for d in dirs if d != "out")
        for name in sorted(names):
            if name.endswith(ends):
                yield os.path.join(folder, name)


def of_function(path):
    """Whether a file is one function's proof: proofs/F/*.antt or proofs/M/F/*.antt."""
    return "proofs" in path.split(os.sep)[:-2]


def turned(name):
    if name in OTHERWISE:
        return OTHERWISE[name]
    name = name.replace("getD", "get_or")
    name = re.sub(r"(?<=[a-z0-9])([A-Z])", lambda m: "_" + m.group(1).lower(), name)
    return name.replace("-", "_").replace("′", "'")


def declared(root):
    found = collections.defaultdict(set)
    for path in files(root, ".antt"):
        if of_function(path):
            continue
        for line in open(path, encoding="utf-8"):
            if re.match(r"\s*(--|use |ghost )", line):
                continue
            it = DECLARED.match(line)
            names = [it.group(1)] if it else []
            it = TOGETHER.match(line)
            names += it.group(1).split() if it else []
            for name in names + STEP.findall(line):
                found[name].add(os.path.relpath(path, root))
    return found


def imported(root):
    """The names of Rattle's own library that some file brings in: they stay."""
    names = set()
    for path in files(root, (".antt", ".rt")):
        with open(path, encoding="utf-8") as f:
            for it in IMPORTED.finditer(f.read()):
                names |= {name.strip().split(" as ")[0] for name in it.group(1).split(",")}
    return names


def freed(path, text):
    """The text with another word for what has a tactic's name, comments apart."""
    comment = {".rt": "//", ".antt": "--", ".edit": "#"}[os.path.splitext(path)[1]]
    lines = []
    for line in text.split("\n"):
        said = line[5:].lstrip() if line.startswith(("old:", "new:")) else line
        at = len(line) if said is not line and not said.startswith(("--", "//")) else line.find(comment)
        at = len(line) if at < 0 else at
        lines.append(TAKEN[0].sub(TAKEN[1], line[:at]) + line[at:])
    return "\n".join(lines)


def main(argv):
    root = argv[0] if argv else "."
    found = declared(root)
    library = imported(root)
    turn = {name: turned(name) for name in [*found, *sorted(BOUND)] if turned(name) != name and name not in library}
    definitions = {new for name, new in turn.items() if re.search("[a-z0-9][A-Z]", name)}
    for name, new in turn.items():
        if "-" in name and new in definitions and new not in APART:
            turn[name] = new + "_lem"
    bad = 0
    seen = {}
    for name, new in sorted(turn.items()):
        if (new in found or new in seen) and new not in APART and new not in turn:
            print(f"{name} and {new if new in found else seen[new]} fall together: {sorted(found[name])} {sorted(found.get(new, ()))}")
            bad += 1
        seen[new] = name
    if bad:
        return 1
    changed = 0
    for path in files(root, (".antt", ".rt", ".edit")):
        with open(path, encoding="utf-8") as f:
            text = f.read()
        made = of_function(path)

        def one(m):
            word = m.group(0)
            if word not in turn:
                return word
            # a step or a goal that Rattle makes stands behind a dot
            if made and "-" in word and text[m.start() - 1 : m.start()] == ".":
                return word
            return turn[word]

        new = freed(path, TOKEN.sub(one, text))
        if new != text:
            with open(path, "w", encoding="utf-8") as f:
                f.write(new)
            changed += 1
    print(f"respell: {len(turn)} names turned, {changed} files changed")
    return 0


if __name__ == "__main__":
    raise SystemExit(main(sys.argv[1:]))
