#!/usr/bin/env python3
"""Brings the repository's own names of specs/ and proofs/ to today's spelling: words in snake case, types in camel case.

usage: python3 tools/respell.py [--list]     at the top, after port.py; with --list it prints old and new names and writes nothing

A word is a name of a definition that begins with a small letter; a lemma is another name declared in proofs/. In a word, a field and a constructor every dash becomes '_', and each
capital inside becomes '_' and the small letter. In a lemma a dash stays where it joins the names of two words, of the repository or of the library; other dashes become '_'.
A lemma that would have the name of a word gets `_lem`. Names that Rattle makes and names of src/ are left alone. Where the new spelling would fall together with another name all the same, HELD
says what is written instead.
"""

import collections
import os
import re
import sys

ROOT = os.path.join(os.path.dirname(os.path.realpath(__file__)), "..")
TOKEN = re.compile(r"[^\s(){}\[\];,.@`]+")
DECLARED = re.compile(r"^(\s*)((?:(?:abbrev|unfoldable|pub)\s+)*)([^\s(){}\[\];,.@]+) :(?= |$)")
HEAD = re.compile(r"^\s*(?:pub )?(record|data)\b")
# words of the library that lemmas' names speak of
LIBRARY = set("length get_or set take drop append map reverse replicate cond suc zero pred nil cons snoc head tail sum min max eqb leb ltb elem filter fold".split())
# old part of a name, new part: words of the library that were respelled
PARTS = {"getD": "get_or"}
# names that would fall together with another, and what is written instead
HELD = {"goesOn": "goes_further"}


def files(kind):
    for folder, dirs, names in os.walk(os.path.join(ROOT, "crates")):
        dirs[:] = sorted(d for d in dirs if d != "out")
        for n in sorted(names):
            p = os.path.join(folder, n)
            if kind(os.path.relpath(p, ROOT)):
                yield p


def text(p):
    with open(p, encoding="utf-8") as f:
        return f.read()


def snake(part):
    if part in PARTS:
        return PARTS[part]
    if not part or not part[0].islower():
        return part
    return re.sub(r"(?<=[a-z0-9'])([A-Z])", lambda m: "_" + m.group(1).lower(), part)


def declared():
    """The words, the lemmas, and the fields and constructors (each a set of names)."""
    words, lemmas, fields = set(), set(), set()
    for p in files(lambda p: p.endswith(".antt")):
        if os.path.basename(p) in ("Proof.antt", "Answers.antt", "Invariants.antt"):
            continue
        inside = None
        for line in text(p).splitlines():
            if not line.strip() or line.startswith("--"):
                continue
            indent = len(line) - len(line.lstrip())
            if inside is not None and indent <= inside:
                inside = None
            m = HEAD.match(line)
            if m:
                inside = indent
                continue
            m = DECLARED.match(line)
            if not m or line.lstrip().startswith(("let ", "(", "{", "--")):
                continue
            name = m.group(3)
            if inside is not None:
                fields.add(name)
            elif "/specs/" in p or "abbrev" in m.group(2) or "unfoldable" in m.group(2):
                words.add(name)
            else:
                lemmas.add(name)
    return words, lemmas, fields


def names():
    """Old names and new."""
    words, lemmas, fields = declared()
    known = {snake(w) for w in words if "-" not in w} | LIBRARY | {w for w in words if w[0].isupper()}
    for p in files(lambda p: p.endswith(".antt") and "/specs/" in p):
        known |= set(re.findall(r"(?m)^\s*(?:pub )?(?:record|data) (?:pub )?([A-Z]\w*)", text(p)))
    new = {}
    for n in words | fields:
        new[n] = "_".join(snake(q) for q in n.split("-"))
    for n in lemmas:
        parts = [snake(q) for q in n.split("-")]
        out = parts[0]
        for a, b in zip(parts, parts[1:]):
            out += ("-" if a in known and b in known else "_") + b
        new.setdefault(n, out)
    new.update(HELD)
    # a lemma that would have the name of a word, a field or a constructor gets `_lem`
    taken = {new[n] for n in words | fields}
    for n in lemmas - words - fields:
        if new[n] in taken:
            new[n] += "_lem"
    return {a: b for a, b in new.items() if a != b}


def imported(t):
    """Names that a file takes from a library."""
    found = set()
    for m in re.finditer(r"(?m)^(?:ghost )?use (\S+?)\.\{([^}]*)\}", t):
        own = m.group(1).startswith("Rattle.") and os.path.isdir(os.path.join(ROOT, "crates", m.group(1).split(".")[1]))
        if not own:
            found |= {w.strip() for w in m.group(2).split(",")}
    return found


def turn(t, new, skip, dotted=None):
    """dotted: the names that are turned behind a dot, where these are not all."""

    def word(m):
        w = m.group()
        behind = m.start() > 0 and t[m.start() - 1] == "."
        if w in skip or behind and dotted is not None and w not in dotted:
            return w
        return new.get(w, w)

    return TOKEN.sub(word, t)


def antt(t, new, dotted=None):
    skip = imported(t)
    out = []
    for line in t.split("\n"):
        code, dash, note = line, "", ""
        m = re.search(r"(?:^|\s)-- ", line)
        if m:
            code, note = line[: m.start()], line[m.start() :]
            note = re.sub(r"`[^`]*`", lambda m: turn(m.group(), new, skip), note)
            note = turn(note, {a: b for a, b in new.items() if "-" not in a}, skip)
        out.append(turn(code, new, skip, dotted) + note)
    return "\n".join(out)


def source(t, new):
    """Only ghost lines and clauses of a source."""
    skip = imported(t)
    out, depth = [], 0
    for line in t.split("\n"):
        if depth or re.match(r"\s*(ghost\b|requires\b|ensures\b|requires\*|ensures\*)", line):
            line = turn(line, new, skip)
            depth += line.count("{") - line.count("}")
            if line.lstrip().startswith("ghost use") and line.rstrip().endswith(";"):
                depth = 0
        elif line.lstrip().startswith("//"):
            line = re.sub(r"`[^`]*`", lambda m: turn(m.group(), {a: b for a, b in new.items() if "-" in a or a != a.lower()}, skip), line)
        out.append(line)
    return "\n".join(out)


def edit(t, new):
    out = []
    for line in t.split("\n"):
        if line.startswith(("old: ", "new: ")):
            line = line[:5] + turn(line[5:], new, set())
        out.append(line)
    return "\n".join(out)


def clashes(new):
    """Names that fall together: two old names with one new, or a new name that stands in a file of the old."""
    said = []
    back = collections.defaultdict(set)
    words, lemmas, fields = declared()
    for a in words | lemmas | fields:
        back[new.get(a, a)].add(a)
    for b, olds in sorted(back.items()):
        if len(olds) > 1:
            said.append(f"one new name {b}: {sorted(olds)}")
    for p in files(lambda p: p.endswith((".antt", ".rt"))):
        t = text(p)
        have = {w for line in t.split("\n") for w in TOKEN.findall(re.sub(r"(?:--|//) .*", "", line))}
        for a in sorted(have & set(new)):
            if new[a] in have:
                said.append(f"{os.path.relpath(p, ROOT)}: {a} becomes {new[a]}, which stands there")
    return said


def main(argv):
    new = names()
    if "--list" in argv:
        for a, b in sorted(new.items()):
            print(a, b)
        print("\n".join(clashes(new)))
        return
    declared_fields = declared()[2]
    for p in files(lambda p: p.endswith(".antt")):
        t = text(p)
        u = antt(t, new, declared_fields if os.path.basename(p) == "Proof.antt" else None)
        if u != t:
            open(p, "w", encoding="utf-8").write(u)
    for p in files(lambda p: p.endswith(".rt")):
        t = text(p)
        u = source(t, new)
        if u != t:
            open(p, "w", encoding="utf-8").write(u)
    for p in files(lambda p: p.endswith(".edit")):
        t = text(p)
        u = edit(t, new)
        if u != t:
            open(p, "w", encoding="utf-8").write(u)


main(sys.argv[1:])
