#!/usr/bin/env python3
"""Runs before port.py, at the top of the repository.

Three names of one proof file read like today's, and for them port.py would leave out every step for older spellings.
A file specs/Contracts.antt would stand in the way of the module specs.contracts that Rattle makes: it is specs/Inner.antt,
for it holds the words that only inner contracts use.
"""
import glob
import os
import re

FILE = "crates/desk_lent/proofs/apply/Proof.antt"
NAMES = {"drop_of": "dropOf", "shift_of": "shiftOf", "fit_of": "fitOf"}


def turned(path, turn):
    with open(path, encoding="utf-8") as f:
        text = f.read()
    new = turn(text)
    if new != text:
        with open(path, "w", encoding="utf-8") as f:
            f.write(new)


def apart(text):
    for old, new in NAMES.items():
        text = re.sub(rf"\bproofs\.effect\.{old} as {old}\b", f"proofs.effect.{old} as {new}", text)
        text = re.sub(rf"(?<!proofs\.effect\.)\b{old}(?=[\s.)])", new, text)
    return text


def inner(text):
    text = re.sub(r"\bspecs\.Contracts\b", "specs.Inner", text)
    return re.sub(r"(?m)^pub mod Contracts$", "pub mod Inner", text)


turned(FILE, apart)
for path in sorted(glob.glob("crates/*/specs/Contracts.antt")):
    os.rename(path, os.path.join(os.path.dirname(path), "Inner.antt"))
for folder, _, files in os.walk("crates"):
    for name in sorted(files):
        if name.endswith((".rt", ".antt", ".edit")):
            turned(os.path.join(folder, name), inner)
