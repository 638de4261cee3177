#!/usr/bin/env python3
"""Counts the places that docs/DESIGN-PASS.md speaks of, by its points 1 to 8.

    count.py FOLDER [KIND..]          each place, a line: kind file:line name
    count.py --count FOLDER [KIND..]  the numbers alone, a line for each kind: kind places what
    count.py --names FOLDER [KIND..]  a line for each kind, as the page has them: names by file, or by what they have in common

FOLDER is a checkout, KIND is 1a and so on, all where none is given. Code is crates/*/src/**/*.rt; for point 8, crates/*/proofs too.
One function below counts one kind and says in its first line what it counts. The parse is small: it blanks comments and
texts, then finds functions, structs and enums by matching brackets. No kind depends on another.
"""
import difflib
import glob
import os
import re
import sys
from collections import Counter, defaultdict

KINDS = []  # (kind, what, function), in order


def kind(name):
    def add(f):
        KINDS.append((name, f.__doc__.strip(), f))
        return f

    return add


# ---- the parse

NUMBER = r"(?:u8|u16|u32|u64|usize)"


def blanked(text):
    """The text with comments, byte texts and characters made blanks and quotes, each as long as it was."""

    def blank(m):
        s = m.group(0)
        if s.startswith("//"):
            return " " * len(s)
        return re.sub(r"[^\n\"']", "_", s)

    return re.sub(r"//[^\n]*|b?\"(?:\\.|[^\"\\])*\"|b?'(?:\\.|[^'\\\n])'", blank, text)


def closing(text, at):
    """The place behind the bracket that closes the one at `at`."""
    deep = 0
    for i in range(at, len(text)):
        if text[i] in "([{":
            deep += 1
        elif text[i] in ")]}":
            deep -= 1
            if deep == 0:
                return i + 1
    return len(text)


def parts_of(text, sign=","):
    """The parts between signs that stand in no bracket."""
    parts, deep, last = [], 0, 0
    for i, c in enumerate(text):
        if c in "([{<" and not text[i:i + 2] == "< ":
            deep += 1
        elif c in ")]}" or c == ">" and text[i - 1] not in "- =":
            deep -= 1
        elif c == sign and deep == 0:
            parts.append(text[last:i])
            last = i + 1
    parts.append(text[last:])
    return [p.strip() for p in parts if p.strip()]


class Fn:
    def __init__(self, file, line, name, params, result, clauses, body, body_line, comment):
        self.file, self.line, self.name = file, line, name
        self.params, self.result, self.clauses = params, result, clauses
        self.body, self.body_line = body, body_line  # the body without its braces, comments blanked
        self.comment = comment

    def lines(self):
        return [x for x in self.body.split("\n") if x.strip()]

    def at(self, place):
        """The line of a place in the body."""
        return self.body_line + self.body.count("\n", 0, place)

    def on_surface(self):
        """Whether C calls it, or it is the function behind such a one."""
        return self.file.startswith(("crates/api/", "crates/api_c/"))


class Type:
    def __init__(self, file, line, word, name, members):
        self.file, self.line, self.word, self.name = file, line, word, name
        self.members = members  # of an enum (variant, payload), of a struct (field, type)


def crate(file):
    return file.split("/")[1]


def functions(file, text, plain):
    for m in re.finditer(r"^[ ]*(?:pub(?:\([a-z]+\))? )?(?:extern \"_*\" )?fn (\w+)", plain, re.M):
        opens = plain.index("(", m.end())
        behind = closing(plain, opens)
        params = []
        for p in parts_of(plain[opens + 1:behind - 1]):
            if ":" in p:
                n, t = p.split(":", 1)
                params.append((n.strip().removeprefix("mut "), " ".join(t.split())))
        at, clauses = behind, []
        # contracts may hold quotes and any signs, so clauses are read from the text itself
        head = re.compile(r"\s*(->(?:\[[^\]]*\]|[^{;\[])*?)?(?=\s*(?:requires|ensures|where|\{|;))").match(plain, at)
        result = (head.group(1) or "").removeprefix("->").strip() if head else ""
        at = head.end() if head else at
        while True:
            c = re.compile(r"\s*(requires|ensures)\s*(\w*)\s*\{").match(plain, at)
            if not c:
                break
            end = closing(plain, c.end() - 1)
            clauses.append((c.group(1), text[c.end():end - 1].strip()))
            at = end
        opens = plain.find("{", at)
        if opens < 0 or ";" in plain[at:opens]:
            continue  # a declaration alone
        body = plain[opens + 1:closing(plain, opens) - 1]
        line = plain.count("\n", 0, m.start()) + 1
        above, lines = [], text.split("\n")
        i = line - 2
        while i >= 0 and re.match(r"\s*(//|#\[)", lines[i]):
            above.insert(0, lines[i].strip().lstrip("/ "))
            i -= 1
        yield Fn(file, line, m.group(1), params, result, clauses, body, plain.count("\n", 0, opens) + 1, " ".join(above))


def types(file, text, plain):
    for m in re.finditer(r"^[ ]*(?:pub )?(struct|enum) (\w+)[^{;(]*\{", plain, re.M):
        inside = plain[m.end():closing(plain, m.end() - 1) - 1]
        members = []
        for p in parts_of(re.sub(r"#\[[^\]]*\]", "", inside)):
            n = re.match(r"(?:pub )?(\w+)", p)
            if n:
                members.append((n.group(1), " ".join(p[n.end():].lstrip(": ").split())))
        yield Type(file, plain.count("\n", 0, m.start()) + 1, m.group(1), m.group(2), members)


class Code:
    """All that is counted, read once."""

    def __init__(self, folder):
        self.folder, self.fns, self.types, self.texts = folder, [], [], []
        for path in sorted(glob.glob(os.path.join(folder, "crates/*/src/**/*.rt"), recursive=True)):
            file = os.path.relpath(path, folder)
            text = open(path, encoding="utf-8").read()
            plain = blanked(text)
            plain = re.sub(r"^ghost use[^\n]*", lambda m: " " * len(m.group(0)), plain, flags=re.M)
            self.texts.append((file, plain))
            self.fns += functions(file, text, plain)
            self.types += types(file, text, plain)
        self.proofs = []
        for path in sorted(glob.glob(os.path.join(folder, "crates/*/proofs/**/*.antt"), recursive=True)):
            self.proofs.append((os.path.relpath(path, folder), open(path, encoding="utf-8").read()))
        own = {t.name for t in self.types}
        self.empty = {t.name for t in self.types if t.word == "enum" and not any(p for _, p in t.members)}
        self.own = own


def in_bodies(code, pattern, name=lambda f, m: f.name):
    """Each place in the bodies at which the pattern stands."""
    for f in code.fns:
        for m in re.finditer(pattern, f.body):
            yield f.file, f.at(m.start()), name(f, m)


# ---- 1: Option, Result, enums

@kind("1a")
def result_shapes(code):
    """own enums with a variant that holds a refusal (Refusal or What), as Result"""
    for t in code.types:
        if t.word == "enum" and any(re.search(r"\b(Refusal|What)\b", p) for _, p in t.members):
            yield t.file, t.line, t.name


@kind("1b")
def option_shapes(code):
    """own enums of two variants, one empty and one with a value, as Option"""
    for t in code.types:
        if t.word == "enum" and sorted(bool(p) for _, p in t.members) == [False, True]:
            yield t.file, t.line, t.name


@kind("1c")
def flags(code):
    """bool fields of structs, which stand beside values"""
    for t in code.types:
        for n, p in t.members:
            if t.word == "struct" and p == "bool":
                yield t.file, t.line, f"{t.name}.{n}"


@kind("1d")
def sentinel_searches(code):
    """functions with a number as result that return it from inside a loop and end with another number for none"""
    for f in code.fns:
        if re.fullmatch(NUMBER, f.result):
            loop = re.search(r"\b(while|for)\b[^{]*\{", f.body)
            if loop and re.search(r"\breturn\b", f.body[loop.end():closing(f.body, loop.end() - 1)]):
                yield f.file, f.line, f.name


@kind("1e")
def sentinel_comments(code):
    """functions whose comment gives a number a second meaning (or one past, or how many there are, or the end, or 0, 0 where)"""
    says = r"\bor (one past|how many there are|the end|0|1)\b|\b0 (where|past)\b|\bzeros where\b|, else 0\b"
    for f in code.fns:
        if re.search(says, f.comment):
            yield f.file, f.line, f.name


@kind("1f")
def sentinel_names(code):
    """places in bodies that name a value for none (NO_NUMBER, HIGHEST <, FAR, no_best, no_job, still_fit, still_shift)"""
    return in_bodies(code, r"\bNO_NUMBER\b|\bHIGHEST <|\bFAR\b|\bno_best\(|\bno_job\(|\bstill_fit\(|\bstill_shift\(")


@kind("1g")
def zeros_for_none(code):
    """places where a function with a number as result gives 0 by itself: return 0, a line that is 0, else { 0 }"""
    for f in code.fns:
        if re.fullmatch(NUMBER, f.result):
            for m in re.finditer(r"\breturn 0;|\belse \{ 0 \}|^ +0$", f.body, re.M):
                yield f.file, f.at(m.start()), f.name


@kind("1h")
def editions(code):
    """numbers for kinds: parameters and fields `edition` that are numbers"""
    for f in code.fns:
        for n, t in f.params:
            if n == "edition" and re.fullmatch(NUMBER, t):
                yield f.file, f.line, f.name
    for t in code.types:
        for n, p in t.members:
            if re.search(r"\bedition: " + NUMBER, p) or n == "edition" and re.fullmatch(NUMBER, p):
                yield t.file, t.line, f"{t.name}.{n}"


@kind("1i")
def kinds_by_number(code):
    """numbers for kinds: functions that compare one number with == to two literals or more, or `which`, `.number`, `edition` to one"""
    for f in code.fns:
        tested = defaultdict(set)
        for m in re.finditer(r"([\w.]+) [!=]= (\d+)\b", f.body):
            tested[m.group(1)].add(m.group(2))
        if any(len(v) > 1 or re.search(r"^which$|\.number$|^edition$", k) for k, v in tested.items()):
            yield f.file, f.line, f.name


@kind("1j")
def refusal_numbers(code):
    """numbers for refusals: calls that give a refusal its number"""
    return in_bodies(code, r"\b(numbered|telling|questioned)\(\d+", lambda f, m: f.name)


@kind("1k")
def passed_on(code):
    """match arms that only pass a refusal on"""
    arm = r"\b\w+::(Refused|Wrong)\((\w+)\) => \w+::(Refused|Wrong)\(\2\)|\w+::Expected \{[^}]*\} => \w+::Expected \{|\w+::Line \{[^}]*\} => \w+::Expected \{"
    arm += r"|\bErr\((\w+)\) => (return )?Err\(\4\)|\bNone => (return )?None\b"  # the same arms once the enums are std's
    return in_bodies(code, arm)


@kind("1l")
def good_again(code):
    """match arms whose last line makes again the good value that they matched"""
    for f in code.fns:
        for m in re.finditer(r"(\w+::(?!Refused|Wrong)\w+)(\([^)]*\)| \{[^}]*\})? => \{?", f.body):
            if m.group(0).endswith("{"):
                inside = f.body[m.end():closing(f.body, m.end() - 1) - 1].rstrip()
                again = re.search(re.escape(m.group(1)) + r"(\([^)]*\)|\s*\{[^}]*\})?$", inside)
            else:
                again = re.compile(re.escape(m.group(1)) + r"\b").match(f.body, m.end())
            if again:
                yield f.file, f.at(m.start()), f.name


@kind("1m")
def done_or_not(code):
    """functions that are lent something to write into and answer a bool, whether it was done, as Result"""
    for f in code.fns:
        if f.result == "bool" and any(t.startswith("&mut ") for _, t in f.params):
            yield f.file, f.line, f.name


# ---- 2: twins

WORDS = set("let mut while for in if else return match break continue as loop".split())
SIGNS = r"b?\"[^\"]*\"|b?'[^']*'|[A-Za-z_]\w*(?:::[A-Za-z_]\w*)*|\d\w*|\S"  # a text, a name with its path, a number, else one sign


def shape(body):
    """The body with each name, type, path, literal and constant as n: keywords, brackets and signs stay."""
    return " ".join(t if t in WORDS or not re.match(r"b?[\"'\w]", t) else "n" for t in re.findall(SIGNS, body))


def numbered(body):
    """The same with names numbered in the order in which they come, and literals and constants as #."""
    seen, out = {}, []
    for t in re.findall(SIGNS, body):
        if re.match(r"b?[\"'\d]|(.*::)?[A-Z][A-Z_0-9]+$|true$|false$", t):
            t = "#"
        elif t not in WORDS and re.match(r"\w", t):
            t = "n%d" % seen.setdefault(t, len(seen))
        out.append(t)
    return " ".join(out)


def skeleton(body):
    """The same with each expression as E: only let, =, loops, tests, returns and braces stay."""
    s = body
    while re.search(r"\([^()]*\)|\[[^\[\]]*\]", s):
        s = re.sub(r"\([^()]*\)|\[[^\[\]]*\]", "", s)
    s = re.sub(r"(?<![<>=!+\-])[+\-]?=(?!=)", " := ", s)
    out = []
    for t in re.findall(r":=|[A-Za-z_]\w*|[{};]|\S", s):
        t = t if t in WORDS or t in ("{", "}", ";", ":=") else "E"
        if not (t == "E" and out and out[-1] == "E"):
            out.append(t)
    return " ".join(out)


def grouped(fns, key):
    """Each function that has a twin, with the first of its group."""
    groups = defaultdict(list)
    for f in fns:
        groups[key(f)].append(f)
    for g in groups.values():
        if len(g) > 1:
            for f in g:
                yield f.file, f.line, f"{f.name}: as {crate(g[0].file)}/{g[0].name}"


@kind("2a")
def twin_functions(code):
    """functions of three lines or more whose bodies are equal but for names, types and constants"""
    return grouped([f for f in code.fns if len(f.lines()) >= 3], lambda f: shape(f.body))


@kind("2b")
def twin_loops(code):
    """functions with a loop whose bodies are equal where each expression is one sign"""
    return grouped([f for f in code.fns if re.search(r"\bwhile\b", f.body)], lambda f: skeleton(f.body))


@kind("2c")
def twin_lines(code):
    """functions of one or two lines whose bodies are equal but for names, types and constants, a name being the same throughout (without api and api_c)"""
    return grouped([f for f in code.fns if 0 < len(f.lines()) < 3 and not f.on_surface()], lambda f: numbered(f.body))


@kind("2d")
def twin_types(code):
    """structs and enums that are equal but for names (enums with empty variants only left out)"""
    groups = defaultdict(list)
    for t in code.types:
        if t.name not in code.empty:
            groups[t.word, tuple(re.sub(r"\w+:", "", p) for _, p in t.members)].append(t)
    for g in groups.values():
        for t in g if len(g) > 1 else []:
            yield t.file, t.line, f"{t.name}: as {crate(g[0].file)}/{g[0].name}"


@kind("2e")
def again_for_c(code):
    """functions of api_c that only call the function of the same name of api"""
    for f in code.fns:
        if f.file.startswith("crates/api_c/") and re.match(r"\s*api::" + f.name + r"\(", f.body):
            yield f.file, f.line, f.name


@kind("2f")
def near_twins(code):
    """pairs of functions of three lines or more, not equal, that share nine of ten signs of their bodies (without api and api_c)"""
    fns = [(f, shape(f.body).split()) for f in code.fns if len(f.lines()) >= 3 and not f.on_surface()]
    fns = [(f, w) for f, w in fns if len(w) > 30]
    for i, (f, a) in enumerate(fns):
        for g, b in fns[:i]:
            if a != b and 9 * max(len(a), len(b)) < 10 * min(len(a), len(b)) + 9:
                m = difflib.SequenceMatcher(None, a, b, False)
                if m.quick_ratio() > 0.9 and m.ratio() > 0.9:
                    yield f.file, f.line, f"{f.name}: near {crate(g.file)}/{g.name}"


# ---- 3: loops

def loops(code, by_one):
    for f in code.fns:
        for m in re.finditer(r"\b(?:while ([^{]*)|loop )\{", f.body):
            inside = f.body[m.end():closing(f.body, m.end() - 1)]
            tested = re.findall(r"[a-z_][\w.]*", m.group(1) or "loop")
            counted = [v for v in tested if re.search(r"(?<![\w.])" + re.escape(v) + r" [+-]= 1;", inside)]
            if bool(counted) == by_one:
                yield f.file, f.at(m.start()), f"{f.name} {(counted or tested)[0]}"


@kind("3a")
def index_loops(code):
    """while loops that count the variable of their test by one"""
    return loops(code, True)


@kind("3b")
def other_loops(code):
    """while loops with another step, and loop"""
    return loops(code, False)


@kind("3c")
def range_loops(code):
    """for loops over a range of indices"""
    return in_bodies(code, r"\bfor \w+ in [^{]*\.\.")


# ---- 4: equality, order, copying, conversion, printing by hand

@kind("4a")
def widened(code):
    """calls of wide and wide32"""
    return in_bodies(code, r"\bwide(32)?\(")


@kind("4b")
def least_or_most(code):
    """calls of smaller, larger and earlier, as min and max"""
    return in_bodies(code, r"\b(smaller|larger|earlier)\(")


@kind("4c")
def tests_as_numbers(code):
    """calls of one_if"""
    return in_bodies(code, r"\bone_if\(")


@kind("4d")
def stopping(code):
    """calls of less, sum and beyond, as saturating_sub and saturating_add"""
    return in_bodies(code, r"(?<![.\w])(less|sum|beyond)\(")


@kind("4e")
def casts(code):
    """casts with as, in constants too"""
    for file, plain in code.texts:
        for m in re.finditer(r"\bas " + NUMBER + r"\b", plain):
            line = plain.count("\n", 0, m.start()) + 1
            fns = [f.name for f in code.fns if f.file == file and f.line <= line <= f.at(len(f.body))]
            yield file, line, (fns or ["a constant"])[0]


@kind("4f")
def equality(code):
    """functions that compare fields or elements one by one, or order by one field and then another"""
    for f in code.fns:
        fields = re.findall(r"\b\w+\.\w+ != 0\b", f.body)
        elements = re.search(r"\w\[\w+\] != \w+\[", f.body)
        lexical = re.search(r"if (\w+) < (\w+) \{\s*return true;\s*\}\s*if \1 != \2", f.body)
        if f.result == "bool" and (len(fields) > 1 or elements or lexical):
            yield f.file, f.line, f.name


@kind("4g")
def conversions(code):
    """conversions as functions: tell, told and to by name, one cast alone, or a match, test or literal that makes an own type of one argument"""
    for f in code.fns:
        named = re.match(r"(tell|told|to)(_|$)", f.name)
        cast = re.fullmatch(r"\s*\w+ as " + NUMBER + r"\s*", f.body)
        one = len(f.params) == 1 and f.result in code.own and f.result != f.params[0][1]
        moved = one and re.match(r"\s*(match|if|[A-Z]\w*(::\w+)? \{)", f.body)
        if named or cast or moved:
            yield f.file, f.line, f.name


@kind("4h")
def printing(code):
    """functions put_.. that put text or bytes into lent bytes"""
    for f in code.fns:
        if f.name.startswith("put_") and any(t == "&mut [u8]" for _, t in f.params):
            yield f.file, f.line, f.name


@kind("4i")
def copying(code):
    """loops that copy or fill: the body of the loop sets an element, or puts one, and nothing else"""
    for f in code.fns:
        for m in re.finditer(r"\bwhile [^{]*\{", f.body):
            lines = [x.strip() for x in f.body[m.end():closing(f.body, m.end() - 1) - 1].split("\n") if x.strip()]
            sets = [x for x in lines if re.match(r"\w+\[[^\]]*\] = |(\w+::)*put\w*\(.*\);$", x)]
            if len(sets) == 1 and all(x in sets or re.match(r"\w+ \+= 1;$", x) for x in lines):
                yield f.file, f.line, f.name


# ---- 5: facts and parameters that travel together

def facts(clause):
    """The conjuncts of a clause, each as one line."""
    c = " ".join(clause.split())
    if c.startswith("(") and closing(c, 0) == len(c):
        return facts(c[1:-1])
    deep, last, cut = 0, 0, []
    for i, x in enumerate(c):
        deep += (x in "([{") - (x in ")]}")
        if deep == 0 and x == "→":
            return [c]  # what follows an arrow is one fact
        if deep == 0 and x == "×":
            cut.append((last, i))
            last = i + 1
    if not cut:
        return [c]
    return [g for a, b in cut + [(last, len(c))] for g in facts(c[a:b].strip())]


def repeated_facts(code, word):
    stands = defaultdict(list)
    for f in code.fns:
        for fact in {g for k, c in f.clauses if k == word for g in facts(c)}:
            stands[fact].append(f)
    for fact, fs in sorted(stands.items(), key=lambda x: -len(x[1])):
        if len(fs) > 2:
            for f in fs:
                yield f.file, f.line, f"{f.name}: {fact}"


@kind("5a")
def required(code):
    """functions that require a fact which three or more require, a place for each fact"""
    return repeated_facts(code, "requires")


@kind("5b")
def ensured(code):
    """functions that ensure a fact which three or more ensure, a place for each fact"""
    return repeated_facts(code, "ensures")


@kind("5c")
def travelling(code):
    """sets of three parameters or more, by name and type, that three or more functions have (without api and api_c); a place for each set"""
    fns = [f for f in code.fns if not f.on_surface()]
    has = [frozenset(f.params) for f in fns]
    sets, new = set(), {a & b for i, a in enumerate(has) for b in has[:i] if len(a & b) > 2}
    while new - sets:  # what two sets share is such a set too
        sets |= new
        new = {a & b for a in sets for b in sets if len(a & b) > 2}
    for s in sorted(sets, key=lambda s: (-sum(s <= h for h in has), sorted(s))):
        fs = [f for f, h in zip(fns, has) if s <= h]
        if len(fs) > 2:
            names = [n for n, _ in fs[0].params if n in {x for x, _ in s}]
            yield fs[0].file, fs[0].line, f"{fs[0].name} and {len(fs) - 1} more: {' '.join(names)}"


@kind("5d")
def always(code):
    """parameters, by name and type, of three or more functions that never stand without another (without api and api_c)"""
    fns = [f for f in code.fns if not f.on_surface()]
    for p in sorted({p for f in fns for p in f.params}):
        with_it = [f for f in fns if p in f.params]
        if len(with_it) > 2:
            for q in sorted(set.intersection(*(set(f.params) for f in with_it)) - {p}):
                yield with_it[0].file, with_it[0].line, f"{with_it[0].name} and {len(with_it) - 1} more: {p[0]} {p[1]} with {q[0]} {q[1]}"


@kind("5e")
def methods(code):
    """functions whose first parameter is a struct of the repository, by value or lent, instead of self (without api and api_c)"""
    structs = {t.name for t in code.types if t.word == "struct"}
    for f in code.fns:
        if f.params and re.sub(r"^&(mut )?", "", f.params[0][1]) in structs and not f.on_surface():
            yield f.file, f.line, f"{f.name} {f.params[0][1]}"


@kind("5f")
def many_parameters(code):
    """functions with six parameters or more (without api and api_c)"""
    for f in code.fns:
        if len(f.params) > 5 and not f.on_surface():
            yield f.file, f.line, f.name


# ---- 6: buffers, parallel arrays, searches

@kind("6a")
def cursors(code):
    """functions with a lent output and the place `at` or `start` in it, that answer the next place"""
    for f in code.fns:
        p = dict(f.params)
        if any(t.startswith("&mut [") for t in p.values()) and f.result == "usize" and (p.get("at") or p.get("start")) == "usize":
            yield f.file, f.line, f.name


@kind("6b")
def local_buffers(code):
    """local arrays of a fixed length that are filled in part"""
    return in_bodies(code, r"let (mut )?\w+ = (\[[^;\]]*;[^\]]*\]|[\w:]*zeros::<\w+>\(\))", lambda f, m: f.name + " " + m.group(0).split(" =")[0].split()[-1])


@kind("6c")
def counts_beside(code):
    """functions that require of a number that it is at most the length of a slice beside it: the number of elements that count"""
    for f in code.fns:
        p = dict(f.params)
        said = " ".join(c for k, c in f.clauses if k == "requires")
        if any(p.get(n) == "usize" and "[" in p.get(x, "") for n, x in re.findall(r"\b(\w+) ≤ length (\w+)\.", said)):
            yield f.file, f.line, f.name


@kind("6d")
def parallel(code):
    """functions with two slices of one element type that are indexed by one variable"""
    for f in code.fns:
        slices = {n: t.replace("mut ", "") for n, t in f.params if re.match(r"&(mut )?\[", t)}
        at = defaultdict(set)
        for n, i in re.findall(r"\b(\w+)\[([^\]]*)\]", f.body):
            if n in slices:
                at[(slices[n], i)].add(n)
        if any(len(v) > 1 for v in at.values()):
            yield f.file, f.line, f.name


@kind("6e")
def parallel_lent(code):
    """functions with curve and asks, or points and ticks, as two slices"""
    for f in code.fns:
        n = {x for x, t in f.params if "[" in t}
        if {"curve", "asks"} <= n or {"points", "ticks"} <= n:
            yield f.file, f.line, f.name


@kind("6f")
def flat_records(code):
    """places that reckon the place of a record in a flat table (.._WIDTH *, / .._WIDTH, field_at)"""
    return in_bodies(code, r"\b(PART|TASK|RUN|QUESTION|ROW)_WIDTH \*|/ (PART|TASK|RUN|QUESTION|ROW)_WIDTH|\bfield_at\(")


@kind("6g")
def searched(code):
    """searches by hand: functions that return from inside a while loop"""
    for f in code.fns:
        for m in re.finditer(r"\bwhile [^{]*\{", f.body):
            if re.search(r"\breturn\b|\bbreak\b", f.body[m.end():closing(f.body, m.end() - 1)]):
                yield f.file, f.line, f.name
                break


# ---- 7: switches

@kind("7a")
def switching(code):
    """matches on an enum of the repository with empty variants only, or on Decision or Ask: which test or step to run"""
    names = code.empty | {"Decision", "Ask"}
    for f in code.fns:
        own = {n for n, t in f.params if t in names}
        for m in re.finditer(r"\bmatch (\w+) \{", f.body):
            if m.group(1) in own:
                yield f.file, f.at(m.start()), f"{f.name} {m.group(1)}"


@kind("7b")
def switched(code):
    """functions that are handed such an enum"""
    for f in code.fns:
        for n, t in f.params:
            if t in code.empty | {"Decision", "Ask"}:
                yield f.file, f.line, f"{f.name} {t}"


@kind("7c")
def bools(code):
    """parameters of type bool"""
    for f in code.fns:
        for n, t in f.params:
            if t == "bool":
                yield f.file, f.line, f"{f.name} {n}"


@kind("7d")
def picked(code):
    """calls with a constant of such an enum (find(l, Mark::Solid))"""
    names = "|".join(sorted(code.empty))
    return in_bodies(code, r"\w\([^(){};=]*[ ,&]\b(" + names + r")::\w+(?=[,)])", lambda f, m: f"{f.name} {m.group(0).split()[-1]}")


# ---- 8: proofs

# an answer: its name and goal in a line, and all up to the next one
ANSWER = r"^pub (\S+) : goal\.[^\n]*\n(.*?)(?=^pub |^abbrev |\Z)"


@kind("8a")
def answer_files(code):
    """files Answers.antt"""
    for file, text in code.proofs:
        if file.endswith("/Answers.antt") and "goal." in text:
            yield file, 1, os.path.basename(os.path.dirname(file))


def answers(code):
    for file, text in code.proofs:
        for m in re.finditer(ANSWER, text, re.M | re.S):
            yield file, text.count("\n", 0, m.start()) + 1, m.group(1), m.group(2).split(" = ", 1)[-1]  # what is said


@kind("8b")
def answered(code):
    """answers"""
    for file, line, name, _ in answers(code):
        yield file, line, f"{os.path.basename(os.path.dirname(file))} {name}"


@kind("8c")
def answered_by_rules(code):
    """answers that only say `search rules`, alone or in each part, with or without unfolding"""
    for file, line, name, said in answers(code):
        if re.fullmatch(r"[\s(),]*(search rules[\s(),]*)+", said):
            yield file, line, f"{os.path.basename(os.path.dirname(file))} {name}"


@kind("8d")
def repeated_answers(code):
    """answers whose text, but for goal names, three or more have"""
    groups = defaultdict(list)
    for file, line, name, said in answers(code):
        groups[re.sub(r"\bc\.[\w.-]+", "c", " ".join(said.split()))].append((file, line, f"{os.path.basename(os.path.dirname(file))} {name}"))
    for g in groups.values():
        if len(g) > 2:
            yield from g


def lemmas(code):
    """Each lemma of the files right in proofs/, which are no function's own: file, line, name, type."""
    for file, text in code.proofs:
        if file.count("/") == 3 and not file.endswith("/Lib.antt"):
            for m in re.finditer(r"^ {0,2}pub ([^\s:({]+) : ([^\n]*)", text, re.M):
                yield file, text.count("\n", 0, m.start()) + 1, m.group(1), m.group(2)


def cited(code):
    """How often each word stands in proofs, specs, code and pages; docs/DESIGN-PASS.md, which names what is uncited, left out."""
    words = Counter()
    for path in glob.glob(os.path.join(code.folder, "**/*"), recursive=True):
        if path.endswith((".antt", ".rt", ".md")) and not path.endswith("DESIGN-PASS.md"):
            words.update(re.findall(r"[^\s(){}\[\],.;`]+", re.sub(r"^[ \t]*--[^\n]*|//[^\n]*", "", open(path, encoding="utf-8").read(), flags=re.M)))
    return words


@kind("8e")
def uncited(code):
    """lemmas whose name stands nowhere but at their own definition (theorems of specs/ left out: their type is one name)"""
    words = cited(code)
    for file, line, name, what in lemmas(code):
        text = dict(code.proofs)[file]
        own = len(re.findall(r"^[ ]*(?:pub )?" + re.escape(name) + r"(?=[\s:])", text, re.M))
        if words[name] <= own and not re.fullmatch(r"[A-Z]\w*", what.strip()):
            yield file, line, name


@kind("8f")
def own_lemmas(code):
    """lemmas of proofs/ in all, theorems of specs/ left out"""
    for file, line, name, what in lemmas(code):
        if not re.fullmatch(r"[A-Z]\w*", what.strip()):
            yield file, line, name


# ---- what the eight points leave out, but a reader meets

@kind("x1")
def chains(code):
    """tests as a chain: functions with a bool as result, `if .. { return false; }` or `return true;` and no loop, as && and ||"""
    for f in code.fns:
        if f.result == "bool" and re.search(r"return (true|false);", f.body) and not re.search(r"\bwhile\b", f.body):
            yield f.file, f.line, f.name


@kind("x2")
def sums(code):
    """x = x + e, as x += e"""
    return in_bodies(code, r"\b(\w+) = \1 [+\-*/] ")


@kind("x3")
def getters(code):
    """functions that only hand out a field, and structs with nothing in them (no_.., still_..) as functions"""
    for f in code.fns:
        only = re.fullmatch(r"\s*\w+\.\w+\s*", f.body)
        if only and len(f.params) == 1 or not f.params and f.result in code.own:
            yield f.file, f.line, f.name


@kind("x4")
def twice_named(code):
    """fields set as name: name"""
    return in_bodies(code, r"\b(\w+): \1,")


@kind("x5")
def copied_and_changed(code):
    """let mut r = s; and then fields of r, as a literal with ..s or a method that takes &mut self"""
    for f in code.fns:
        for m in re.finditer(r"let mut (\w+) = \w+;", f.body):
            if re.search(r"\b" + m.group(1) + r"\.\w+ = ", f.body[m.end():]):
                yield f.file, f.at(m.start()), f.name


@kind("x6")
def bare_types(code):
    """types that derive Clone and Copy alone"""
    for file, plain in code.texts:
        for m in re.finditer(r"#\[derive\(Clone, Copy\)\]\s*(?:pub )?(?:struct|enum) (\w+)", plain):
            yield file, plain.count("\n", 0, m.start()) + 1, m.group(1)


def gathered(places):
    """The places as one text: by what they have in common, where that stands behind a colon, else by file; many by crate alone."""
    by = defaultdict(Counter)
    for file, _, n in places:
        short = file.removeprefix("crates/").replace("/src/lib.rt", "").replace("/src/main.rt", "").replace("/src/", "/").replace("/proofs/", "/")
        short = short.removesuffix(".rt").removesuffix(".antt").removesuffix("/Answers")
        if len(places) > 150:
            by[crate(file)][""] += 1
        elif ": " in n:
            by[n.split(": ", 1)[1]][crate(file) + "/" + n.split(": ", 1)[0]] += 1
        else:
            by[short][n] += 1
    if len(places) > 150:
        return ", ".join(f"{k} {c['']}" for k, c in by.items())
    lists = {k: ", ".join(f"{n} ({c})" if c > 1 else n for n, c in v.items()) for k, v in by.items()}
    return "; ".join(v if k.startswith("as ") else f"{v} {k}" if k.startswith("near ") else f"{k}: {v}" for k, v in lists.items())


def main():
    words = [w for w in sys.argv[1:] if not w.startswith("--")]
    if not words:
        sys.exit(__doc__)
    code = Code(words[0])
    for name, what, f in KINDS:
        if words[1:] and name not in words[1:]:
            continue
        places = list(f(code))
        if "--count" in sys.argv:
            print(f"{name} {len(places):5} {what}")
        elif "--names" in sys.argv:
            print(f"{name}: {gathered(places)}")
        else:
            for file, line, n in places:
                print(f"{name} {file}:{line} {n}")


main()
