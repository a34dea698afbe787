#!/usr/bin/env python3
"""Brings the repository's own names in specs/ and proofs/ to today's spelling: words in snake case, types in camel case.

usage: python3 tools/respell.py      at the top of the repository, once, after port.py

A name is one that a file of specs/ or proofs/ declares: a definition, a lemma, a field, a constructor or a record; goals of functions keep
the names that the check gives them. `Is-the-bank` becomes `IsTheBank`, `units-before` becomes `units_before`, and a trailing operator stays,
as in `safe-++`. Functions of src/, strings, inputs and outputs keep their names. It stops where two names would fall together.
"""
import os
import re
import sys

# names that a rule would not give: propositions that were spelled as words; words with the name of a function of src/; `getD`, which is gone
OTHERWISE = {
    "first-reading": "FirstReading",
    "whole-reading": "WholeReading",
    "amounts-below": "AmountsBelow",
    "wrote": "HasWritten",
    "rate-of": "rate_of_lem",
    "limits-in": "limits_in_lem",
    "numbers-by": "numbers_by_lem",
    "numbers-in": "numbers_in_lem",
    "rows-for": "rows_for_lem",
    "answer-of": "answer_of_lem",
    "call-of": "call_of_lem",
    "read-call": "read_call_lem",
    "each-getD": "each_get_or",
    "getD-first": "get_or_first",
    "getD-zeros": "get_or_zeros",
}
GOALS = ("Answers.antt", "Invariants.antt", "Proof.antt")
DECLARED = re.compile(r"\s*(?:(?:abbrev|unfoldable)\s+)?(?:pub\s+)?(?:(?:abbrev|unfoldable)\s+)?(?:(record|data)\s+)?([^\s(){}\[\],;.\"]+)\s*(.*)$")
TYPED = re.compile(r"(\(.*\)\s*|\{.*\}\s*)*:(\s|$)")
TOKEN = re.compile(r"[^\s(){}\[\],;.\"«»`]+")


def files(top, endings):
    for folder, dirs, names in os.walk(top):
        dirs[:] = sorted(d for d in dirs if d not in ("out", ".git"))
        for name in sorted(names):
            if name.endswith(endings):
                yield os.path.join(folder, name)


def read(path):
    with open(path, encoding="utf-8") as f:
        return f.read()


def declared():
    """All names that specs/ and proofs/ declare, without goals; and those that are goals or have no dash."""
    own, others = set(), set()
    for path in files("crates", (".antt",)):
        for line in read(path).splitlines():
            if line.strip().startswith("--"):
                continue
            m = DECLARED.match(line)
            if not m or not (m.group(1) or TYPED.match(m.group(3))):
                continue
            if os.path.basename(path) in GOALS and "goal." in m.group(3):
                others.add(m.group(2))
            else:
                own.add(m.group(2))
    return own, others


def respelled(name):
    if name in OTHERWISE:
        return OTHERWISE[name]
    if name[0].isupper():
        return "".join(w[0].upper() + w[1:] for w in name.split("-"))
    word, operator = re.fullmatch(r"(.*?)(-\+\+)?", name).groups()
    return word.replace("-", "_") + (operator or "")


def turn(text, names):
    return TOKEN.sub(lambda m: names.get(m.group(0), m.group(0)), text)


def turn_proofs(text, names, dashed):
    """A word with no dash is left in comments, where it is English."""
    lines = [re.match(r"(.*?)(\s*(?:^|\s)--.*)?$", line, re.S).groups() for line in text.split("\n")]
    return "\n".join(turn(code, names) + turn(comment or "", dashed) for code, comment in lines)


def turn_code(text, names):
    """Only contracts and what stands behind ghost: not strings, and not `wrote`, which src/ may have as a word of its own."""
    parts = re.split(r'("(?:[^"\\]|\\.)*")', text)
    return "".join(p if p.startswith('"') else turn(p, names) for p in parts)


def main():
    own, others = declared()
    names = {n: respelled(n) for n in own if "-" in n or n in OTHERWISE}
    names = {n: m for n, m in names.items() if n != m}
    taken = own - set(names) | others
    clash = [n for n, m in names.items() if m in taken] + [m for m in set(names.values()) if list(names.values()).count(m) > 1]
    if clash:
        sys.exit("names fall together: " + ", ".join(sorted(clash)))
    dashed = {n: m for n, m in names.items() if "-" in n}
    for path in files("crates", (".antt",)):
        text = read(path)
        new = turn_proofs(text, names, dashed)
        if new != text:
            open(path, "w", encoding="utf-8").write(new)
    for path in files("crates", (".rt", ".edit")):
        text = read(path)
        new = turn_code(text, dashed)
        if new != text:
            open(path, "w", encoding="utf-8").write(new)
    for path in ["README.md", *files("docs", (".md",))]:
        text = read(path)
        new = re.sub(r"`[^`\n]*`", lambda m: turn(m.group(0), dashed), text)
        if new != text:
            open(path, "w", encoding="utf-8").write(new)
    print(f"{len(names)} names respelled")


main()
