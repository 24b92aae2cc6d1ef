#!/usr/bin/env python3
"""Brings this repository's own definitions and lemmas to snake case: leValue and part-more become le_value and part_more.

usage: respell.py [--check] [ROOT]      ROOT is the folder that holds crates/; --check writes nothing

A name turns if an .antt file of crates/ declares it (a definition, a lemma, a field of a record or a constructor), or a trait of the code as its ghost member, and it begins in lower case.
It turns in .antt files, and in the clauses, ghost lines and comments' code spans of .rt files; functions, types and strings of the code stay.
Names of a function's goals and what Rattle makes stay, and a name stays in a file that imports it from a library.
It lists the names that would fall together, in the whole tree or in one file, and then writes nothing.
"""

import os
import re
import sys

NAME = r'[^\s(){}.;,@"«»]+'
WORD = re.compile(NAME)
QUOTED = re.compile(r'"(?:[^"\\\n]|\\.)*"')
DECLARED = re.compile(rf"(?m)^([ ]*)(?:(?:pub|abbrev|unfoldable|abstract) )*(?!use |mod |data |record |unfolding )({NAME})(?: \{{[^{{}}\n]*\}})* :(?= |$)([^\n]*)")
MEMBER = re.compile(r"\bghost (\w+)(?=\s*[:=])")
USE = re.compile(r"\buse ([^\s;{]+)(\{[^;}]*\})?(?: as ([^\s;]+))?")
PATH = re.compile(r"\b(use) [^\s;{]+")  # what a path names are modules and types
CLAUSE = re.compile(r"\b(?:requires|ensures|ghost)\b\*?(?:\s+\w+)*\s*(?::\s*(?:owns\s+|lends\s+)?|=\s*)?\{|\bghost\s+use\b|#!?\[tactic\(")
OF_LIBRARY = re.compile(r"(?:Rattle\.(?:core|std|std_\w+|libc|io|os|anyhow)\b|mathlib\b|lib\b|native\b|Prim\b|borrow\b|denote\b|mir\b)")


# Lemmas and laws that would meet a definition in their file: their name there, which turns first.
LEMS = {
    "crates/text/proofs/Reading.antt": ("all_digits",),
    "crates/ledger/proofs/AskedTriggers.antt": ("at_second",),
    "crates/ledger/proofs/Asked.antt": ("to-table",),
    "crates/head/specs/Laws.antt": ("in_order",),
    "crates/head/proofs/HeadLaws.antt": ("in_order",),
    "crates/model/proofs/ServingSound.antt": ("in_order",),
}

# A constructor and a field of the code, which are told apart by where they stand.
APART = {"self_read"}

# Fields of records, which stand behind a dot: they share the name of a definition.
FIELDS = {"self-reads", "power-up", "time-changed", "self-read-taken"}


def snake(name):
    name = re.sub(r"(?<=[a-z0-9])[A-Z]", lambda m: "_" + m[0].lower(), name)
    return re.sub(r"(?<=\w)-(?=\w)", "_", name)


def spelled(names):
    """The new spelling of each name: a lemma that would get its definition's name is a lem."""
    defined = {snake(n) for n in names if "-" not in n}
    return {n: snake(n) + ("_lem" if "-" in n and n not in FIELDS and snake(n) in defined else "") for n in names}


def files(root):
    for folder, dirs, names in os.walk(os.path.join(root, "crates")):
        dirs[:] = sorted(d for d in dirs if d not in ("out", "target", "data"))
        for f in sorted(names):
            if f.endswith((".antt", ".rt")):
                yield os.path.join(folder, f)


def read(path):
    with open(path, encoding="utf-8") as f:
        return f.read()


def declared(root):
    """The names that turn."""
    names = set()
    for path in files(root):
        if not path.endswith(".antt"):
            for name in MEMBER.findall(re.sub(r"//[^\n]*", "", read(path))):
                if name[0].islower() and snake(name) != name:
                    names.add(name)
            continue
        answers = os.path.basename(path) in ("Answers.antt", "Invariants.antt", "Proof.antt")
        text = re.sub(r"--[^\n]*", "", read(path))
        for m in DECLARED.finditer(text):
            depth, name, rest = m.groups()
            if answers and (depth or "goal." in rest or m[0].startswith("pub ")):
                continue
            if name[0].islower() and snake(name) != name:
                names.add(name)
    return names


def from_library(text):
    """The names that a file imports from a library."""
    found = set()
    for path, items, alias in USE.findall(text):
        if OF_LIBRARY.match(path):
            inside = re.findall(rf"({NAME})(?: as ({NAME}))?", items[1:-1]) if items else []
            found |= {b or a for a, b in inside} | ({alias} if alias else {path.split(".")[-1]})
    return found


def turned(text, table):
    def word(m):
        return table.get(m[0], m[0])

    def unrenamed(m):
        a, b = table.get(m[1], m[1]), table.get(m[2], m[2])
        return a if a == b and m[1] != m[2] else f"{a} as {b}"

    out, at = [], 0
    for q in QUOTED.finditer(text):
        out += [text[at : q.start()], q[0]]
        at = q.end()
    out.append(text[at:])
    for i in range(0, len(out), 2):
        out[i] = re.sub(rf"(?<![^\s{{,])({NAME}) as ({NAME})", unrenamed, out[i])
        out[i] = WORD.sub(word, out[i])
    return "".join(out)


def antt(text, table):
    parts = re.split(r"((?<![^\s(){}.;,@])--[^\n]*)", text)
    for i, part in enumerate(parts):
        if i % 2 == 0:
            parts[i] = turned(part, table)
        else:
            parts[i] = re.sub(r"`[^`\n]*`", lambda m: "`" + turned(m[0][1:-1], table) + "`", part)
    return "".join(parts)


def clauses(text):
    """The spans of a .rt file that antt is written in."""
    spans = []
    for m in CLAUSE.finditer(text):
        if spans and m.start() < spans[-1][1]:
            continue
        if text[m.end() - 1] in "{(":
            opening = text[m.end() - 1]
            closing = {"{": "}", "(": ")"}[opening]
            depth, at = 1, m.end()
            while depth:
                depth += (text[at] == opening) - (text[at] == closing)
                at += 1
            spans.append((m.end(), at - 1))
        else:
            spans.append((m.end(), text.index(";", m.end())))
    return spans


def rt(text, table):
    out, at = [], 0
    bare = re.sub(r"//[^\n]*", lambda m: " " * len(m[0]), text)
    for a, b in clauses(bare):
        out += [text[at:a], turned(text[a:b], table)]
        at = b
    out.append(text[at:])
    for i in range(0, len(out), 2):
        out[i] = re.sub(r"\bghost (\w+)(?=\s*[:=])|\bghost (\w+)$", lambda m: "ghost " + table.get(m[1] or m[2], m[1] or m[2]), out[i])
        out[i] = re.sub(r"//[^\n]*", lambda c: re.sub(r"`[^`\n]*`", lambda m: "`" + turned(m[0][1:-1], table) + "`", c[0]), out[i])
    return "".join(out)


def main(argv):
    check = "--check" in argv
    roots = [a for a in argv if a != "--check"]
    root = roots[0] if roots else "."
    names = declared(root)
    bad = []
    by_new, spelling = {}, spelled(names)
    defined = {snake(n) for n in names if "-" not in n}
    for old in sorted(names):
        if old not in FIELDS:
            by_new.setdefault(spelling[old], []).append(old)
    for new, olds in sorted(by_new.items()):
        if len(olds) > 1:
            bad.append(f"{new}: from {', '.join(sorted(olds))}")
    changed = {}
    for path in files(root):
        first = text = read(path)
        lems = [n for n in LEMS.get(os.path.relpath(path, root).replace(os.sep, "/"), ()) if n in names or snake(n) in defined]
        text = turned(text, {n: snake(n) + "_lem" for n in lems})
        theirs = from_library(text)
        table = {old: new for old, new in spelling.items() if old not in theirs}
        if path.endswith(".antt"):
            code = re.sub(r"--[^\n]*", "", text)
            words = set(WORD.findall(PATH.sub(r"\1", code)))
            new = antt(text, table)
        else:
            bare = re.sub(r"//[^\n]*", "", text)
            inside = " ".join(bare[a:b] for a, b in clauses(bare))
            words = set(WORD.findall(PATH.sub(r"\1", inside)))
            outside = set(re.findall(r"\b(\w+)\s*:(?!:)", re.sub(r'"(?:[^"\\\n]|\\.)*"', "", bare)))
            for old in sorted(words & set(table)):
                if table[old] in outside:
                    bad.append(f"{os.path.relpath(path, root)}: {old} would be {table[old]}, which a parameter or a field is called")
            new = rt(text, table)
        for old in sorted(words & set(table)):
            if table[old] in words and table[old] not in APART:
                bad.append(f"{os.path.relpath(path, root)}: {old} would be {table[old]}, which stands there already")
        if new != first:
            changed[path] = new
    for path, new in changed.items():
        if not check and not bad:
            with open(path, "w", encoding="utf-8") as f:
                f.write(new)
    print("\n".join(bad))
    print(f"{len(names)} names, {len(changed)} files, {len(bad)} that fall together")
    return 1 if bad else 0


if __name__ == "__main__":
    raise SystemExit(main(sys.argv[1:]))
