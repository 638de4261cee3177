#!/usr/bin/env python3
"""Runs after names.py, at the top of the repository: respells the must-fail edits as the files that they change were respelled.

Each edit's lines are taken from the commit that had landed (the argument), and each word in them as most lines of the files turned it.
What no longer stands once in its file is printed, to be brought over by hand.
"""
import collections
import difflib
import glob
import os
import re
import subprocess
import sys

LANDED = sys.argv[1]
WORD = re.compile(r"[A-Za-z_ℕ◌≡≤<>+*/%^&|=-][\w'′ℕ◌≡≤<>+*/%^&|=-]*")


def landed(path):
    r = subprocess.run(["git", "show", f"{LANDED}:{path}"], capture_output=True, text=True)
    return r.stdout if r.returncode == 0 else None


def now(path):
    for p in (path, path.replace("/specs/Contracts.antt", "/specs/Inner.antt")):
        if os.path.exists(p):
            with open(p, encoding="utf-8") as f:
                return f.read()
    return None


def pairs():
    """Words as they stood and as they stand, from lines that turned with as many words."""
    votes = collections.defaultdict(collections.Counter)
    for path in subprocess.run(["git", "ls-tree", "-r", "--name-only", LANDED, "crates"], capture_output=True, text=True).stdout.split("\n"):
        if not re.match(r"crates/\w+/(specs|src)/.*\.(antt|rt)$", path):
            continue
        old, new = landed(path), now(path)
        if old is None or new is None:
            continue
        a, b = old.split("\n"), new.split("\n")
        for tag, i1, i2, j1, j2 in difflib.SequenceMatcher(None, a, b, autojunk=False).get_opcodes():
            if tag == "replace" and i2 - i1 == j2 - j1:
                for x, y in zip(a[i1:i2], b[j1:j2]):
                    p, q = WORD.findall(x), WORD.findall(y)
                    if len(p) == len(q):
                        for u, v in zip(p, q):
                            votes[u][v] += 1
            elif tag == "equal":
                for x in a[i1:i2]:
                    for u in WORD.findall(x):
                        votes[u][u] += 1
    return {u: c.most_common(1)[0][0] for u, c in votes.items() if c.most_common(1)[0][0] != u}


TURNS = pairs()


def tight(line):
    """Projections stand tight, and alone they need no brackets; what a reference holds has today's words."""
    line = re.sub(r" ⌝", "", line)
    line = re.sub(r"\(?\bnow \((\w+) \.entry\)\)?", r"\1.old", line)
    line = re.sub(r"\(?\bnow \((\w+) \.exit\)\)?", r"\1.new", line)
    line = re.sub(r"(?<=[\w'])((?: \.[\w']+)+)", lambda it: it[1].replace(" ", ""), line)
    line = re.sub(r"\(([\w']+(?:\.[\w']+)+)\)", r"\1", line)
    return re.sub(r"(Prim\.Native\.Nat\.)_([-+*/%])_", r"\1◌\2◌", line.replace("Rattle·", "Rattle."))


def turned(line):
    return tight(WORD.sub(lambda it: TURNS.get(it[0], it[0]), line))


for edit in sorted(glob.glob("crates/*/must-fail/*.edit")):
    text = landed(edit)
    with open(edit, encoding="utf-8") as f:
        here = f.read()
    lines, file, bad = [], None, False
    crate = edit.split("/")[1]
    for line in text.rstrip("\n").split("\n"):
        word, _, rest = line.partition(": ")
        if word == "file":
            file = rest.replace("specs/Contracts.antt", "specs/Inner.antt")
            lines.append(f"file: {file}")
        elif word in ("old", "new"):
            target = now(f"crates/{crate}/{file}") or ""
            if word == "old":
                keep = target.count(rest) == 1
                bad = bad or not (keep or target.count(turned(rest)) == 1)
            turn = turned if not keep else tight if file.startswith("specs/") and word == "new" else str
            lines.append(f"{word}: {turn(rest)}")
        else:
            lines.append(line)
    new = "\n".join(lines) + "\n"
    if new != here:
        with open(edit, "w", encoding="utf-8") as f:
            f.write(new)
    if bad:
        print(edit)
        for line in lines:
            if not line.startswith("#"):
                print("   ", line)
