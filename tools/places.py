#!/usr/bin/env python3
"""Counts, in crates/*/src, the places that docs/DESIGN-PASS.md speaks of. It goes by text: what it lists is to be read,
and the page says which of them are places.

    python3 tools/places.py            the counts
    python3 tools/places.py all        and every place
    python3 tools/places.py twins      and the places of one kind
"""

import collections
import pathlib
import re
import sys

ROOT = pathlib.Path(__file__).resolve().parent.parent


def sources():
    for path in sorted(ROOT.glob("crates/*/src/**/*.rt")):
        text = re.sub(r"//[^\n]*", "", path.read_text())
        yield str(path.relative_to(ROOT)), text.split("#[cfg(test)]")[0]


def functions(text):
    """(name, parameters, clauses, body) of each function of a file that has a body."""
    for found in re.finditer(r"\bfn (\w+)(?:<[^(]*>)?\(", text):
        at = found.end()
        depth = 1
        start = at
        while depth:
            depth += {"(": 1, ")": -1}.get(text[at], 0)
            at += 1
        parameters = text[start : at - 1]
        # clauses have braces of their own: each stands on one line, and the body's brace on a line's start or after the result
        lines = text[at:].split("\n")
        clauses = []
        body = []
        inside = False
        for number, line in enumerate(lines):
            bare = line.strip()
            if not inside:
                if re.match(r"(requires|ensures)\b", bare):
                    clauses.append(bare)
                    continue
                if bare.endswith(";") and number == 0 or (bare == "" and number > 0):
                    break
                if bare.endswith("{") or bare == "{}":
                    inside = True
                    depth = line.count("{") - line.count("}")
                    body.append(line)
                    if depth == 0:
                        break
                continue
            depth += line.count("{") - line.count("}")
            body.append(line)
            if depth <= 0:
                break
        if body:
            yield found.group(1), parameters, clauses, "\n".join(body[1:])


def enums(text):
    for found in re.finditer(r"enum (\w+)(?:<[^>]*>)? \{\n(.*?)\n\}", text, re.S):
        variants = re.findall(r"^    (\w+)([ ({][^\n]*|,|)", found.group(2), re.M)
        yield found.group(1), variants


def optional():
    for path, text in sources():
        for name, variants in enums(text):
            filled = [v for v in variants if v[1][:1] in "({ " and v[1].strip(", ") and "=" not in v[1]]
            if len(variants) == 2 and len(filled) == 1:
                yield f"{path}: enum {name} {{ {', '.join(v[0] for v in variants)} }}"


def flags():
    for path, text in sources():
        for found in re.finditer(r"struct (\w+)(?:<[^>]*>)? \{\n(.*?)\n\}", text, re.S):
            fields = re.findall(r"(\w+): ([^,\n]+),", found.group(2))
            if any(kind == "bool" for _, kind in fields) and len(fields) > 1:
                yield f"{path}: struct {found.group(1)} {{ {', '.join(f'{n}: {k}' for n, k in fields)} }}"


def kinds():
    for path, text in sources():
        for found in re.finditer(r"(?:pub(?:\(crate\))? )?const (\w+): u(?:8|16) = (\d+);", text):
            yield f"{path}: const {found.group(1)} = {found.group(2)}"
        for name, parameters, _, _ in functions(text):
            for found in re.finditer(r"\b(tier|kind|loaded|code): (&mut )?u(?:8|16|32)\b", parameters):
                yield f"{path}: fn {name}, {found.group(0)}"
        for found in re.finditer(r"\bfn (\w*kind\w*)\([^)]*\) -> u\d+", text):
            yield f"{path}: fn {found.group(1)} -> number"


def shape(body):
    """A body with its names, types and numbers blotted out; what is called by a dot or a path stays a name."""
    body = re.sub(r'b?"[^"]*"', "S", body)
    body = re.sub(r"b'.'", "S", body)
    body = re.sub(r"\b0x[0-9A-Fa-f]+\b|\b[0-9][0-9_]*(?:u\d+|usize)?\b", "N", body)
    keep = {"if", "else", "match", "for", "in", "while", "return", "let", "mut", "as", "Ok", "Err", "Some", "None", "self", "N", "S"}
    body = re.sub(r"[A-Za-z_]\w*", lambda m: m.group(0) if m.group(0) in keep else "x", body)
    return re.sub(r"\s+", "", body)


def twins():
    groups = collections.defaultdict(list)
    for path, text in sources():
        for name, parameters, clauses, body in functions(text):
            form = shape(body)
            if len(form) >= 10:
                groups[form].append(f"{path}: fn {name}")
    for form, places in sorted(groups.items(), key=lambda g: g[1]):
        if len(places) > 1:
            yield "; ".join(places)


def doubles():
    """Functions that only hand their own parameters on."""
    for path, text in sources():
        for name, parameters, _, body in functions(text):
            names = re.findall(r"(?:^|,|\n)\s*(?:mut )?(\w+):", parameters)
            names = (["self"] if re.search(r"\bself\b", parameters) else []) + names
            call = re.fullmatch(r"\s*(?:self\.)?(\w+)\(([^()]*)\);?\s*\}?\s*", body, re.S)
            if call and [a.strip().lstrip("&*") for a in call.group(2).split(",") if a.strip()] == [n for n in names if n != "self"]:
                yield f"{path}: fn {name} hands on to {call.group(1)}"


def loops():
    for path, text in sources():
        for number, line in enumerate(text.split("\n"), 1):
            if re.match(r"\s*(while|loop|for)\b.*\{", line):
                yield f"{path}:{number}: {line.strip()}"


def unrolled():
    """Three lines or more that differ in one name or number alone, in one body."""
    for path, text in sources():
        for name, _, _, body in functions(text):
            for pattern in (r"\[0\].*\[1\].*\[2\]", r"Calendar.*Outputs.*Override", r"History.*SelfReads.*LoadProfile"):
                if re.search(pattern, body, re.S) and "=>" not in body:
                    yield f"{path}: fn {name}"
                    break


def conversions():
    words = r"(number|from_number|to_bytes|from_bytes|to_byte|from_byte|from_parts|words|\w+_text|known|kind)"
    for path, text in sources():
        for name, parameters, _, _ in functions(text):
            if re.fullmatch(words, name):
                yield f"{path}: fn {name}"
        for found in re.finditer(r"impl (PartialEq|Eq|PartialOrd|Ord|Clone|Copy|Hash|Default)\b[^\n]*", text):
            yield f"{path}: {found.group(0)}"


def facts():
    seen = collections.Counter()
    for path, text in sources():
        for name, _, clauses, _ in functions(text):
            said = set()
            for clause in clauses:
                if clause.startswith("requires"):
                    fact = re.sub(r"^requires( \w+)? ", "", clause)
                    said.add(re.sub(r"\.(old|now|new)\b", "", fact))
            for fact in said:
                seen[fact] += 1
    for fact, count in seen.most_common():
        if count >= 3:
            yield f"{count} functions: {fact}"


def together():
    seen = collections.Counter()
    for path, text in sources():
        for name, parameters, _, _ in functions(text):
            names = re.findall(r"(\w+): (&mut |&)?(?:'\w+ )?(\[?\w+)", parameters)
            known = sorted({f"{n}: {k}" for n, _, k in names})
            for a in range(len(known)):
                for b in range(a + 1, len(known)):
                    for c in range(b + 1, len(known)):
                        seen[(known[a], known[b], known[c])] += 1
    for group, count in seen.most_common():
        if count >= 3:
            yield f"{count} functions: {', '.join(group)}"


def buffers():
    for path, text in sources():
        for name, parameters, clauses, _ in functions(text):
            for clause in clauses:
                if re.search(r"requires( \w+)? \{ length \S+ ≡ \S+ \}", clause):
                    yield f"{path}: fn {name}: {clause}"


def indices():
    for path, text in sources():
        for number, line in enumerate(text.split("\n"), 1):
            if re.search(r"\.number\(\) as usize - 1|\[\w*bytes\[\d\], |\w+\[0\], \w+\[1\], \w+\[2\]", line):
                yield f"{path}:{number}: {line.strip()}"
            if re.search(r"const \w+: \[", line):
                yield f"{path}:{number}: {line.strip()}"


def switches():
    for path, text in sources():
        picks = collections.Counter()
        for name, parameters, _, body in functions(text):
            chain = len(re.findall(r"else if ", body))
            if chain >= 2:
                yield f"{path}: fn {name}, a chain of {chain + 1} tests"
            if re.search(r"\b(flag|chosen): bool\b", parameters):
                yield f"{path}: fn {name}, a flag that says whether to run a step"
            found = re.match(r"\s*match (\w+) \{", body)
            if found and "BareImage" in body:
                yield f"{path}: fn {name}, a switch on the make"
        for found in re.finditer(r"&dyn |\bfn\([^)]*\) ->", text):
            yield f"{path}: {found.group(0)}"


def proofs():
    for crate in sorted((ROOT / "crates").iterdir()):
        answers = lines = 0
        for path in crate.glob("proofs/**/*.antt"):
            lines += len(path.read_text().split("\n"))
            if path.name == "Answers.antt":
                answers += len(re.findall(r"^pub ", path.read_text(), re.M))
        if lines:
            yield f"{crate.name}: {answers} answers, {lines} lines of proofs"


KINDS = [
    (1, optional), (1, flags), (1, kinds), (2, twins), (2, doubles), (3, loops), (3, unrolled), (4, conversions),
    (5, facts), (5, together), (6, buffers), (6, indices), (7, switches), (8, proofs),
]

if __name__ == "__main__":
    wanted = sys.argv[1] if len(sys.argv) > 1 else ""
    for point, kind in KINDS:
        places = list(kind())
        print(f"{point} {kind.__name__}: {len(places)}")
        if wanted in ("all", kind.__name__):
            for place in places:
                print("   ", place)
