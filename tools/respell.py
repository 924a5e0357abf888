#!/usr/bin/env python3
"""Respells the repository's own definitions and lemmas as the kit spells its own: words in snake case, facts in upper camel case.

usage: python3 tools/respell.py            at the top, once, after port.py: rewrites crates/ in place
       python3 tools/respell.py --table    prints the table alone: old, new

What turns: names with a dash that a file of specs/ or proofs/ declares (definitions, lemmas, fields, constructors, names after `as`), wherever they stand:
the code of .antt files, the clauses of .rt files, code spans of comments, the texts of must-fail edits. A name of the kit that a file imports is left.
What stays: functions of src/, the goals that a proof answers (the check names them), strings, prose.
"""

import collections
import os
import re
import sys

KIT = "/opt/rattle/rattle"
# Definitions whose values are types: `of-place` is `OfPlace`.
FACT = re.compile(r"^(of|numbered)-|^Event-found$")
DECLARED = re.compile(r"^\s*(?:(?:pub|unfoldable|abbrev|record|data|ruleset) +)*([^\s:(){}=]+(?: +[^\s:(){}=]+)*)\s*(?:[({].*)?:(?:\s|$)")
GOAL = re.compile(r":\s*(?:tie\.|goal\.|statement\b)")
ALIAS = re.compile(r"\bas ([^\s,}]+)")
USE = re.compile(r"^\s*(?:pub |ghost )?use +([^\s{;]+?)\.?\{([^}]*)\}|^\s*(?:pub )?use +(\S+)", re.M)
WORD = re.compile(r"[^\s(){}.;,@\"«»\[\]`]+")
SPAN = re.compile(r"`[^`\n]*`")


def files(root):
    for folder, dirs, names in os.walk(os.path.join(root, "crates")):
        dirs[:] = sorted(d for d in dirs if d != "out")
        for name in sorted(names):
            if name.endswith((".antt", ".rt", ".edit")):
                yield os.path.join(folder, name)


def read(path):
    with open(path, encoding="utf-8") as f:
        return f.read()


def of_kit(paths, own):
    """The names with a dash that some file imports from a module that is not the repository's."""
    found = set()
    for path in paths:
        if not path.endswith((".antt", ".rt")):
            continue
        for m in USE.finditer(read(path)):
            module = m.group(1) or m.group(3).rpartition(".")[0]
            parts = module.split(".")
            if parts[0] == "Rattle" and len(parts) > 1 and parts[1] in own:
                continue
            items = (m.group(2) or m.group(3).rpartition(".")[2]).split(",")
            found |= {i.split(" as ")[0].strip() for i in items}
    return {n for n in found if "-" in n}


def declared(paths):
    names = set()
    for path in paths:
        if not path.endswith(".antt"):
            continue
        for line in read(path).split("\n"):
            text = line.strip()
            if text.startswith("--"):
                continue
            if text.startswith(("use ", "pub use ")):
                names |= set(ALIAS.findall(text))
                continue
            m = DECLARED.match(line)
            if m and not (path.endswith("/Proof.antt") and GOAL.search(line)):
                names |= set(m.group(1).split())
    return {n for n in names if "-" in n.strip("-") and re.match(r"[A-Za-z]", n)}


def respelled(name):
    if FACT.match(name):
        return "".join(part[:1].upper() + part[1:] for part in name.split("-"))
    return name.replace("-", "_")


def table(root):
    paths = list(files(root))
    own = set(os.listdir(os.path.join(root, "crates")))
    return {n: respelled(n) for n in sorted(declared(paths) - of_kit(paths, own))}


def words(text, rows):
    return WORD.sub(lambda m: rows.get(m.group(), m.group()), text)


def turn_line(line, rows, mark):
    """The code of a line, and the code spans of its comment."""
    at = re.search(r"(?:^|\s)" + mark, line)
    code, note = (line, "") if at is None else (line[: at.start()], line[at.start() :])
    return words(code, rows) + SPAN.sub(lambda m: words(m.group(), rows), note)


def turn(path, rows):
    text = read(path)
    mark = "--" if path.endswith(".antt") else "//" if path.endswith(".rt") else "(?:--|//|#) "
    new = "\n".join(turn_line(line, rows, mark) for line in text.split("\n"))
    if new != text:
        with open(path, "w", encoding="utf-8") as f:
            f.write(new)


def bound(path, text):
    """The names of parameters and binders: these hide a definition of the same name. (A function of src/ may have its definition's name.)"""
    if path.endswith(".rt"):
        return set(re.findall(r"[(,]\s*(?:mut )?([a-z_0-9]+):", text))
    found = set()
    for group in re.findall(r"[({]([a-z][\w' ]*) :", text) + re.findall(r"λ ([^.(]*)\.", text):
        found |= set(group.split())
    return found


def together(root, rows):
    """Prints the files in which a parameter or binder has the new spelling of a name that the file cites."""
    for path in files(root):
        if path.endswith(".edit"):
            continue
        mark = "--" if path.endswith(".antt") else "//"
        text = "\n".join(line.split(mark)[0] for line in read(path).split("\n"))
        clauses = "\n".join(re.findall(r"(?:requires|ensures)[^{\n]*\{(.*)\}", text)) if path.endswith(".rt") else text
        binders = bound(path, text)
        for old in sorted(set(WORD.findall(clauses)) & rows.keys()):
            if rows[old] in binders:
                print(f"together: {os.path.relpath(path, root)}: {old} {rows[old]}", file=sys.stderr)


def main(argv):
    root = os.getcwd()
    rows = table(root)
    if argv == ["--table"]:
        print("\n".join(f"{old}\t{new}" for old, new in rows.items()))
        return 0
    together(root, rows)
    for path in files(root):
        turn(path, rows)
    return 0


if __name__ == "__main__":
    raise SystemExit(main(sys.argv[1:]))
