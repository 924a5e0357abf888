#!/usr/bin/env python3
"""Writes the lists of definitions that an evaluated theorem opens: every `unfoldable pub` definition of the specs.

    compare/vectors/opened.py        from anywhere; writes crates/*/proofs/Opened.antt of the crates below

Run it after a definition is added to a crate of READ: a definition that is not opened leaves the evaluation stuck, and the theorem is refused.
"""
import pathlib, re

ROOT = pathlib.Path(__file__).resolve().parents[2] / "crates"
# what the model computes with, beside the kit's floats
READ = {"ieee_narrow": ["Narrow"], "ieee_sqrt": ["Sqrt"], "emath": None, "data": None, "feed": None, "model": None}
FLOATS = "add sub mul div lt le eq ne fits neg round sum ofInt ofBits toBits size"


def definitions(crate, only=None):
    for file in sorted((ROOT / crate / "specs").glob("*.antt")):
        names = re.findall(r"^unfoldable pub (\S+) :", file.read_text(), re.M)
        if names and (only is None or file.stem in only):
            yield file.stem, names


def opened(crate, read, others):
    uses, openers, lines = [], [], []
    for owner, only in read.items():
        for module, names in definitions(owner, only):
            alias = f"{owner}-{module}"
            path = f"Rattle·{owner}·specs.specs" if owner == crate else f"Rattle·{owner}.specs"
            uses.append(f"use {path}.{module} as {alias}")
            openers.append(alias.lower())
            lines.append(f"unfoldable pub {alias.lower()} : Type 1\nunfolding " + " ".join(f"{alias}.{n}" for n in names) + f"\n{alias.lower()} = Type 0\n")
    head = "-- Written by compare/vectors/opened.py: the definitions that a theorem evaluates. One that says `unfolding opened` computes with all of them.\n"
    tail = f"unfoldable pub opened : Type 1\nunfolding {' '.join(openers + others[1])}\nopened = Type 0\n"
    (ROOT / crate / "proofs" / "Opened.antt").write_text(head + "\n".join(uses + others[0]) + "\n\n" + "\n".join(lines + [tail]))


KIT = (["use lib.Ieee as Ieee"], [f"Ieee.{n}" for n in FLOATS.split()])
MODEL = (["use Rattle·model.proofs.Opened as Model"], ["Model.opened"])
opened("model", READ, KIT)
opened("theorems", {"theorems": None}, MODEL)
opened("edges", {"edges": None}, MODEL)
if (ROOT / "model_calls").exists():
    opened("model_calls", {"model_calls": None}, (["use Rattle·edges.proofs.Opened as Edges"], ["Edges.opened"]))
