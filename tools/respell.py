#!/usr/bin/env python3
"""Brings the definitions and lemmas of this repository to the spelling of today's Rattle: functions, lemmas and
fields in snake case, facts and types in upper camel case. Run it once, at the top, right after the kit's own
script for an older repository. It changes .antt files, the clauses of .rt files, must-fail and planted edits, and
names between backquotes in docs/ and README.md; comments and strings keep their words.

It stops, changing nothing, where two names would fall together."""
import os
import re
import sys

# What a figure is called by its letters is a function: the figure of an account.
FIGURES = ["GESC", "LESD", "BEQ", "BSC", "VCRP", "VCSC", "FEE", "HEUA", "HEUR", "HEUC", "NASC", "NPSC", "NMEA",
           "WEQ", "WFQ", "IEQ"]
BY_HAND = {f: f.lower() + "_of" for f in FIGURES}
# what a row says is named apart from the row, and the worked half hour apart from a key's
BY_HAND.update({k + "-row": k + "Said" for k in ("Interval", "Facility", "Load", "Contract", "Vesting")})
BY_HAND.update({"half-hour": "worked_half_hour", "IEQ-around": "summed_ieq_around"})
BY_HAND.update({"own-VCSC": "own_vcsc_of", "own-FEE": "own_fee_of", "WEQ-at": "weq_at", "WFQ-at": "wfq_at"})

# names that a clause gives to a type
ALIASES = {"Opened-interval": "OpenedInterval", "Held-statement": "HeldStatement", "Written-line": "WrittenLine"}

EDGE = r"\s(){}.,;"
DECLARED = re.compile(
    r"^(?P<in>\s*)(?:(?:unfoldable|abbrev)\s+)?(?:pub\s+)?(?P<kind>record\s+|data\s+|ruleset\s+)?"
    r"(?P<name>[^\s(){}:]+)\s*(?P<params>[({].*?)?\s:\s(?P<type>.*)$")


def antt_files():
    for top in ("crates", "planted"):
        for root, dirs, files in os.walk(top):
            dirs[:] = sorted(d for d in dirs if d not in ("out", "target"))
            for f in sorted(files):
                yield os.path.join(root, f)


def camel(name):
    return "".join(w[:1].upper() + w[1:] for w in re.split(r"[-_]", name) if w)


def snake(name):
    return name.replace("-", "_")


def is_fact(text):
    """Whether a signature ends in `Type 0`, so that what it names is a fact or a type."""
    return re.search(r"Type 0\s*(where)?\s*$", text) is not None


def names():
    found = {}
    for path in antt_files():
        if not path.endswith(".antt"):
            continue
        lines = open(path, encoding="utf-8").read().split("\n")
        in_record = False
        for n, line in enumerate(lines):
            if line and not line[0].isspace():
                in_record = re.match(r"(abbrev\s+|unfoldable\s+)?(pub\s+)?(record|data)\b", line) is not None
            m = DECLARED.match(line)
            if not m or line.lstrip().startswith("--"):
                continue
            if m["in"] and not (in_record and re.match(r"^  (pub )?[^\s(){}:]+ :", line)):
                # a lemma of a module with parameters: its equation stands below it, as far in
                below = "^" + m["in"] + re.escape(m["name"]) + r"(\s[^:]*)?\s="
                if not any(re.match(below, l) for l in lines[n + 1:n + 40]):
                    continue
            kind, name = (m["kind"] or "").strip(), m["name"]
            if m["type"].startswith("goal."):
                continue
            # a signature may go on over the next lines
            text = line
            k = n + 1
            while k < len(lines) and lines[k].startswith("    ") and not kind and not in_record:
                text += " " + lines[k].strip()
                k += 1
            found.setdefault(name, []).append((path, kind, text))
    return found


def respelled(name, places):
    if name in BY_HAND:
        return BY_HAND[name]
    if not re.search(r"\w-\w", name):
        return name
    for f in FIGURES:
        name = re.sub(rf"\b{f}\b", f.lower(), name)
    fact = any(kind in ("record", "data") or is_fact(text) for _, kind, text in places)
    return camel(name) if fact else snake(name)


def tokens(text):
    return set(re.split("[" + EDGE + "]+", text))


def turned(text, table):
    """The text with each whole name of the table respelled."""
    return re.sub("[^" + EDGE + "]+", lambda m: table.get(m[0], m[0]), text)


def turned_line(line, table, comment):
    at = line.find(comment)
    code, rest = (line, "") if at < 0 else (line[:at], line[at:])
    parts = re.split(r'("(?:[^"\\]|\\.)*")', code)
    return "".join(p if p.startswith('"') else turned(p, table) for p in parts) + rest


def main():
    found = names()
    table = {}
    for name, places in found.items():
        new = respelled(name, places)
        if new != name:
            table[name] = new
    table.update(ALIASES)
    bad = []
    by_new = {}
    for old, new in table.items():
        by_new.setdefault(new, []).append(old)
    for new, olds in by_new.items():
        if len(olds) > 1 or new in found and found[new][0][0]:
            bad.append(f"{new}: {olds}" + (" and a name that is there: " + found[new][0][0] if new in found else ""))
    if "--list" in sys.argv:
        for old, new in sorted(table.items()):
            print(f"{old} {new}")
    if bad:
        print("names that fall together:\n  " + "\n  ".join(bad), file=sys.stderr)
        return 1
    if "--list" in sys.argv:
        return 0
    for path in antt_files():
        comment = {".antt": "--", ".rt": "//", ".edit": "\0"}.get(os.path.splitext(path)[1])
        if comment is None:
            continue
        text = open(path, encoding="utf-8").read()
        new = "\n".join(turned_line(l, table, comment) for l in text.split("\n"))
        if new != text:
            open(path, "w", encoding="utf-8").write(new)
    docs = ["README.md"] + [os.path.join("docs", f) for f in sorted(os.listdir("docs")) if f.endswith(".md")]
    for path in docs:
        text = open(path, encoding="utf-8").read()
        new = re.sub(r"`([^`\n]+)`", lambda m: "`" + table.get(m[1], m[1]) + "`", text)
        if new != text:
            open(path, "w", encoding="utf-8").write(new)
    return 0


if __name__ == "__main__":
    sys.exit(main())
