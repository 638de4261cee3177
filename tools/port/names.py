#!/usr/bin/env python3
"""Runs after port.py, at the top of the repository: spells the names of this repository's own definitions, fields and lemmas as today's do.

What lies in camel case is in snake case. A dash joins two names; a plain word is joined by an underscore.
Names of source items, goals and the library's stay. In proofs of functions what they import from the other files is respelled.
`names.py --check` prints the table and the names that fall together, and writes nothing.
"""
import glob
import os
import re
import sys

CRATES = sorted(os.path.basename(c) for c in glob.glob("crates/*"))
WORD = r"[A-Za-z_ℕΑ-ωµ][\w'′ℕ≤≡*₀-₉-]*"
TOKEN = re.compile(WORD)
DECLARED = re.compile(rf"^\s*(?:(?:abbrev|unfoldable|data|record|pub)\s+)*({WORD})((?:\s+(?:\([^()]*(?:\([^()]*\)[^()]*)*\)|\{{[^{{}}]*\}}))*)\s*:\s")
# Words that stand for names in the library's lemmas.
PLAIN_NAMES = set("le lt eq add mul sub div mod min max zero suc one succ append cons nil length take drop set map take_while sum count not or and if".split())


def read(path):
    with open(path, encoding="utf-8") as f:
        return f.read()


def code(text):
    return "\n".join("" if line.lstrip().startswith("--") else line for line in text.split("\n"))


def declared(text):
    found = []
    for line in code(text).split("\n"):
        it = DECLARED.match(line)
        if it and not it[1].startswith(("use", "module")):
            found.append(it[1])
    return found


def fields(text, ends):
    """The fields of the records that a file declares, each with what ends its name: in specs/ the type may stand in the next line."""
    found, inside = set(), False
    for line in code(text).split("\n"):
        if re.match(r"\s*(pub )?record ", line):
            inside = True
        elif inside and line and not line.startswith(" "):
            inside = False
        elif inside:
            it = re.match(rf"^\s+pub ({WORD}) :{ends}", line)
            if it:
                found.add(it[1])
    return found


def snake(name):
    return re.sub(r"(?<=[a-z0-9])([A-Z])", lambda it: "_" + it[1].lower(), name) if re.match(r"[a-z][a-z0-9]*[A-Z]", name) else name


FILES = sorted(glob.glob("crates/*/specs/*.antt") + glob.glob("crates/*/proofs/*.antt"))
OWN = {path: declared(read(path)) for path in FILES}
FIELDS = set().union(*(fields(read(path), r"(?:\s|$)" if "/specs/" in path else r"\s") for path in FILES))
DEFINED = {snake(n) for path in FILES if "/specs/" in path for n in OWN[path] if "-" not in n} | PLAIN_NAMES


def respelled(name):
    parts = [snake(part) for part in name.split("-")]
    if name in FIELDS:
        return "_".join(parts)
    new, left = parts[0], parts[0]
    for part in parts[1:]:
        joins = (left in DEFINED or left[:1].isupper()) and (part in DEFINED or part[:1].isupper())
        new += ("-" if joins else "_") + part
        left = part if joins else left + "_" + part
    return new


NAMES = {n for path in FILES for n in OWN[path]} | FIELDS
TABLE = {n: respelled(n) for n in NAMES if respelled(n) != n}
# A lemma that would have its definition's name ends in _lem.
TO_CAMEL = {new for n, new in TABLE.items() if "-" not in n}
for n in NAMES:
    if ("-" in n and TABLE.get(n) in DEFINED) or (TABLE.get(n, n) in TO_CAMEL and ("-" in n or n not in TABLE)):
        TABLE[n] = TABLE.get(n, n) + "_lem"


def own_module(path):
    """Whether a dotted path names a file of this repository's specs/ or proofs/ (and no function's proof)."""
    it = re.match(r"Rattle\.(\w+)\.(specs|proofs)\.([A-Z]\w*)", path)
    return bool(it) and it[1] in CRATES and not re.match(r"Rattle\.\w+\.specs\.declared", path)


def imported(text):
    names, modules = set(), set()
    for it in re.finditer(rf"(?m)^\s*(?:pub )?(?:ghost )?use ([\w.'-]+?)(?:\.\{{([^}}]*)\}}| as ({WORD}))?;?$", text):
        if not own_module(it[1]):
            continue
        if it[2] is not None:
            names |= {part.split(" as ")[0].strip() for part in it[2].split(",")}
        modules.add(it[3] or it[1].split(".")[-1])
    return names, modules


def turn(text, names, modules, everywhere=False):
    def one(it):
        name = it[0]
        if name not in TABLE:
            return name
        before = text[: it.start()]
        if before.endswith("."):
            path = re.search(rf"({WORD})\.$", before)
            if name in FIELDS or (path and path[1] in modules):
                return TABLE[name]
            return name
        return TABLE[name] if everywhere or name in names or name in FIELDS else name

    return TOKEN.sub(one, text)


def turned(path):
    text = read(path)
    names, modules = imported(text)
    if path in OWN:
        return turn(text, names | set(OWN[path]), modules)
    if path.endswith(".edit"):
        return turn(text, set(), set(), everywhere=True) if re.search(r"(?m)^file: (specs|proofs)/", text) else text
    if path.endswith(".md"):
        return re.sub(r"`[^`\n]+`", lambda it: turn(it[0], set(), set(), everywhere=True), text)
    return turn(text, names, modules)


def all_files():
    for folder, _, files in os.walk("crates"):
        if folder.endswith("/out") or "/out/" in folder:
            continue
        for name in sorted(files):
            if name.endswith((".rt", ".antt", ".edit")):
                yield os.path.join(folder, name)
    yield from sorted(glob.glob("docs/*.md") + ["README.md"])


def fall_together():
    for path in FILES:
        names, _ = imported(read(path))
        here = set(OWN[path]) | names
        for n in sorted(here):
            new = TABLE.get(n)
            if new and re.search(rf"(?<![\w.'-]){re.escape(new)}(?![\w'-])", code(read(path))):
                yield f"{path}: {n} -> {new} stands there already"
    news = {}
    for n, new in TABLE.items():
        news.setdefault(new, set()).add(n)
    for new, olds in news.items():
        if len(olds) > 1:
            yield f"{sorted(olds)} -> {new}"


if "--check" in sys.argv:
    for n, new in sorted(TABLE.items()):
        print(f"{n}\t{new}")
    for line in fall_together():
        print("together:", line)
else:
    new = {path: turned(path) for path in all_files()}
    for path, text in new.items():
        if text != read(path):
            with open(path, "w", encoding="utf-8") as f:
                f.write(text)
