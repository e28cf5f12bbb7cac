#!/usr/bin/env python3
"""Counts the places of the design pass in crates/*/src of a tree, point by point.

usage: places.py [TREE] [-v]      TREE is a checkout, this one by default; -v also prints each place

What a script can find by its form is found here; docs/DESIGN-PASS.md says which of these are no places, and why.
"""
import glob
import os
import re
import sys

IDENT = re.compile(r"[A-Za-z_][A-Za-z0-9_]*")
KEYWORDS = set(
    "pub fn for in if else match let mut return struct enum impl trait use self Self crate type const while loop "
    "Some None Ok Err true false as ref move where i128 i64 u64 u32 u16 u8 usize bool Option Result Vec ghost "
    "ensures requires".split()
)


def sources(tree):
    for path in sorted(glob.glob(os.path.join(tree, "crates", "*", "src", "*.rt"))):
        name = os.path.relpath(path, os.path.join(tree, "crates"))
        if name.endswith("tests.rt") or name.startswith("edges/"):
            continue
        text = open(path).read()
        cut = text.find("#[cfg(test)]\nmod tests {")
        yield name, text if cut < 0 else text[:cut]


def items(text, word):
    """The items that begin with that word: (line, head, whole text), the head up to the opening brace of the body."""
    for m in re.finditer(r"^[ ]*(?:pub(?:\(crate\))? )?" + word + r" ", text, re.M):
        start, at, depth, inner, body = m.start(), m.end(), 0, 0, None
        clause = False
        while at < len(text):
            c = text[at]
            if depth == 0 and re.match(r"\n\s*(requires|ensures)\b", text[at:]):
                clause = True
            if c == "{":
                if depth == 0 and not clause:
                    body = body or at
                depth += 1
            elif c == "}":
                depth -= 1
                if depth == 0:
                    if clause:
                        clause = False
                    else:
                        break
            elif c in "([":
                inner += 1
            elif c in ")]":
                inner -= 1
            elif c == ";" and depth == 0 and inner == 0:
                break
            at += 1
        yield text.count("\n", 0, start) + 1, text[start : body or at], text[start : at + 1]


def without_clauses(text):
    return "\n".join(l for l in text.split("\n") if not re.match(r"\s*(requires|ensures|ghost)\b", l))


def shape(text):
    """The text with every name and number replaced by its place of first use."""
    seen = {}

    def put(m):
        w = m.group(0)
        return w if w in KEYWORDS else "n"

    text = re.sub(r"//.*", "", without_clauses(text))
    text = IDENT.sub(put, text)
    return re.sub(r"\s+", " ", re.sub(r"\b[0-9][0-9_]*\b", "0", text)).strip()


def twins(files, words, least):
    groups = {}
    for name, text in files:
        for word in words:
            for line, _, whole in items(text, word):
                if whole.count("\n") + 1 >= least:
                    groups.setdefault((word, shape(whole)), []).append(f"{name}:{line}: {whole.strip().splitlines()[0]}")
    return [g for g in groups.values() if len(g) > 1]


def lines_like(name, text, patterns):
    """The lines that match a pattern, each with what the first such pattern stands for."""
    found = []
    for i, l in enumerate(text.split("\n"), 1):
        what = next((w for p, w in patterns if re.search(p, l)), None)
        if what is not None:
            found.append((i, f"{name}:{i}: {what}{l.strip()}"))
    return found


def point1(files):
    found = []
    for name, text in files:
        for line, _, whole in items(text, "enum"):
            unit = not re.search(r"^\s+[A-Z]\w*[({]", whole, re.M)
            if not unit:
                found.append(f"{name}:{line}: an enum with values: {whole.strip().splitlines()[0]}")
        for line, _, whole in items(text, "struct"):
            options = re.findall(r"^\s+(?:pub(?:\(crate\))? )?(\w+): Option<", whole, re.M)
            if len(options) == 2 and whole.count(":") <= 3:
                found.append(f"{name}:{line}: options beside one another: {whole.strip().splitlines()[0]}")
        numbers = r"(phase|window\(\))\.number\(\)|fn (?!number)\w+\(.*\) -> u8$"
        found += [f for _, f in lines_like(name, text, [(numbers, "a number for a kind: ")])]
    return found


def point2(files):
    found = []
    for g in twins(files, ["fn", "struct", "impl(?:<[^>]*>)?"], 5):
        found.append("the same shape: " + " | ".join(g))
    return found


def point3(files):
    found = []
    for name, text in files:
        lines, counted = text.split("\n"), []
        for i, l in enumerate(lines):
            m = re.match(r"\s*for (\w+) in \(?[\w.]+\.\.", l)
            if m and m.group(1) != "_":
                depth, body = 0, []
                for b in lines[i:]:
                    body.append(b)
                    depth += b.count("{") - b.count("}")
                    if depth <= 0:
                        break
                if re.search(r"\[[^\]]*\b" + m.group(1) + r"\b", "\n".join(body)):
                    counted.append((i + 1, f"{name}:{i + 1}: {l.strip()}"))
        others = lines_like(name, text, [(r"^\s*while |^\s*for .* in .*enumerate\(\)", "")])
        found += [f for _, f in sorted(counted + others)]
    return found


def point4(files):
    found = []
    for name, text in files:
        for line, head, whole in items(text, "fn"):
            first = whole.strip().splitlines()[0]
            if re.search(r"fn (number|window_number)\(self\) -> u8", first) and "match self" in whole:
                found.append(f"{name}:{line}: conversion: {first}")
            if re.search(r"fn (is_before|comes_after)\(", first) and "==" in without_clauses(whole):
                found.append(f"{name}:{line}: order: {first}")
            if re.search(r"fn print_\w+\(", first):
                found.append(f"{name}:{line}: printing: {first}")
            if re.search(r"fn of\(\w+: Result", first):
                found.append(f"{name}:{line}: conversion: {first}")
            for m in re.finditer(r"\b(\w+): self\.\1,", whole):
                found.append(f"{name}:{line}: copying of {m.group(1)}: {first}")
    return found


def point5(files):
    facts, groups = {}, {}
    for name, text in files:
        for line, head, whole in items(text, "fn"):
            first = whole.strip().splitlines()[0]
            said = set()
            for m in re.finditer(r"^\s*(?:requires|ensures) (?:\w+ )?\{ (.*) \}$", whole, re.M):
                said.add(m.group(1))
            for fact in said:
                facts.setdefault(fact, []).append(f"{name}:{line}")
            params = re.findall(r"(\w+): (&(?:mut )?\[?[A-Z][\w<>:]*(?:; \w+)?\]?|&(?:mut )?\[Option<\w+>\])", head.split("->")[0])
            if len(params) > 1:
                groups[f"{name}:{line}"] = frozenset(p for p, _ in params)
    found = []
    for fact, where in sorted(facts.items()):
        if len(where) >= 3:
            found.append(f"in {len(where)} contracts: {fact}: " + " ".join(where))
    together = set(groups.values())
    while True:
        more = {a & b for a in together for b in together if len(a & b) > 1} - together
        if not more:
            break
        together |= more
    often = {t: [w for w, p in groups.items() if t <= p] for t in together}
    often = {t: w for t, w in often.items() if len(w) >= 3}
    for t, where in sorted(often.items(), key=lambda x: (-len(x[0]), -len(x[1]), sorted(x[0]))):
        if not any(t < o and set(where) == set(often[o]) for o in often):
            found.append(f"in {len(where)} signatures: {', '.join(sorted(t))}: " + " ".join(where))
    return found


def point6(files):
    found = []
    for name, text in files:
        for line, _, whole in items(text, "struct"):
            first = whole.strip().splitlines()[0]
            lists = re.findall(r"^\s+(?:pub(?:\(crate\))? )?(\w+): (?:&'a mut )?\[(.*?)(?:; (\w+))?\],", whole, re.M)
            if lists and re.search(r"^\s+(?:pub(?:\(crate\))? )?\w+: usize", whole, re.M):
                found.append(f"{name}:{line}: a list with a count beside it: {first}")
            lengths = [l[2] for l in lists if l[2]]
            if len(lengths) != len(set(lengths)):
                found.append(f"{name}:{line}: lists of one length beside one another: {first}")
    return found


def point7(files):
    found = []
    for name, text in files:
        for m in re.finditer(r"^(?:pub(?:\(crate\))? )?struct (\w+);$", text, re.M):
            if re.search(r"^impl.* for " + m.group(1) + r"\b", text, re.M):
                found.append(f"{name}:{text.count(chr(10), 0, m.start()) + 1}: a type that stands for a function: {m.group(1)}")
        switch = r"match (step|self|correction|sort) \{" if "step" in name else r"match (step|sort) \{"
        found += [f for _, f in lines_like(name, text, [(switch, "a switch on a step: ")])]
    return found


def point8(tree):
    names, texts = [], {}
    for path in sorted(glob.glob(os.path.join(tree, "crates", "*", "**", "*.antt"), recursive=True)):
        texts[path] = open(path).read()
    src = "\n".join(open(p).read() for p in glob.glob(os.path.join(tree, "crates", "*", "src", "*.rt")))
    for path, text in texts.items():
        if "/proofs/" not in path or path.endswith(("Answers.antt", "Invariants.antt", "Proof.antt", "Given.antt")):
            continue
        for m in re.finditer(r"^(?:unfoldable |abbrev )*(?:pub )?([a-zA-Z_][\w'-]*) :", text, re.M):
            names.append((path, m.group(1)))
    found = []
    for path, word in names:
        used = 0
        pattern = re.compile(r"(?<![\w'-])" + re.escape(word) + r"(?![\w'-])")
        for other, text in texts.items():
            n = len(pattern.findall(text))
            if other == path:
                own = len(re.findall(r"^(?:unfoldable |abbrev |pub )*" + re.escape(word) + r"(?![\w'-])", text, re.M))
                n -= own
            used += n
        used += len(pattern.findall(src))
        if used == 0:
            found.append(f"{os.path.relpath(path, tree)}: nothing cites {word}")
    return found


def main():
    args = [a for a in sys.argv[1:] if a != "-v"]
    tree = args[0] if args else os.path.join(os.path.dirname(os.path.abspath(__file__)), "..")
    files = list(sources(tree))
    points = [point1, point2, point3, point4, point5, point6, point7]
    for k, point in enumerate(points, 1):
        found = point(files)
        print(f"point {k}: {len(found)}")
        if "-v" in sys.argv:
            for f in found:
                print("   ", f)
    found = point8(tree)
    print(f"point 8: {len(found)}")
    if "-v" in sys.argv:
        for f in found:
            print("   ", f)


main()
