#!/usr/bin/env python3
"""Counts, in the crates of a checkout, the places that docs/DESIGN-PASS.md speaks of: `tools/places.py [FOLDER] [--list]`."""
import collections
import glob
import os
import re
import sys

folder = next((a for a in sys.argv[1:] if not a.startswith("--")), ".")
listing = "--list" in sys.argv
sources = sorted(glob.glob(os.path.join(folder, "crates/*/src/**/*.rt"), recursive=True))
proofs = sorted(glob.glob(os.path.join(folder, "crates/*/proofs/**/*.antt"), recursive=True))
text = {f: open(f).read() for f in sources}


def lines(pattern):
    """Lines of code, without comments, that a pattern is found in."""
    found = []
    for f in sources:
        for n, line in enumerate(text[f].split("\n"), 1):
            code = line.split("//")[0]
            if re.search(pattern, code):
                found.append(f"{os.path.relpath(f, folder)}:{n}: {line.strip()}")
    return found


def functions():
    """Each function: its place, its signature and its body, without ghost lines and comments."""
    for f in sources:
        code = "\n".join(l.split("//")[0] for l in text[f].split("\n"))
        code = re.sub(r"(?m)^\s*(requires|ensures|ghost)\b.*$", "", code)
        for m in re.finditer(r"\bfn (\w+)", code):
            depth, i, opened = 0, m.end(), False
            while i < len(code):
                if code[i] == "{":
                    depth, opened = depth + 1, True
                elif code[i] == "}":
                    depth -= 1
                elif code[i] == ";" and not opened and depth == 0:
                    break
                if opened and depth == 0:
                    break
                i += 1
            if opened:
                yield f"{os.path.relpath(f, folder)}: {m.group(1)}", code[m.start() : i + 1]


def shape(code):
    """Code with each name replaced by the place where it first stands, and each number and string by one mark."""
    names, out = {}, []
    for token in re.findall(r'"[^"]*"|b"[^"]*"|[A-Za-z_]\w*|\d[\w]*|\S', code):
        if re.match(r"[A-Za-z_]", token):
            out.append(str(names.setdefault(token, len(names))))
        elif token[0].isdigit() or token[0] in '"b':
            out.append("#")
        else:
            out.append(token)
    return out


def twins():
    """Functions of at least 25 words whose shapes are the same."""
    groups = collections.defaultdict(list)
    for place, code in functions():
        s = shape(code)
        if len(s) >= 25 and not place.endswith("_stands") and "_stand" not in place:
            groups[" ".join(s)].append(place)
    return ["  =  ".join(g) for g in groups.values() if len(g) > 1]


def facts():
    """Facts that stand in three contracts or more, the values named by one mark."""
    found = collections.Counter()
    for f in sources:
        for line in text[f].split("\n"):
            m = re.match(r"\s*(requires|ensures)\s+(\w+ )?\{ (.*) \}\s*$", line)
            for part in m.group(3).split(" × ") if m else []:
                found[re.sub(r"\b\w+\.(now|old|new|entry)\b(\.\w+)*", "_", part)] += 1
    return [f"{n}  {p}" for p, n in found.most_common() if n >= 3 and re.search(r"[≤<≡]|^[A-Z]", p)]


def answers():
    found = []
    for f in proofs:
        found += re.findall(r"(?m)^(?:abbrev )?pub [\w.-]+ : goal\.", open(f).read())
    return found


counts = {
    "1 flags beside values": lines(r"^\s*(pub(\(\w+\))? )?\w+: bool,"),
    "1 numbers as errors": lines(r"Result<.*, (u8|u16|u32|u64|usize)>"),
    "1 numbers for kinds, refusals or their places": lines(r"\b(place|reason|kind|code): (u8|u16|u32|u64|usize)\b"),
    "1 plain yes or no": lines(r"\) -> (anyhow::Result<)?bool"),
    "2 functions of one shape": twins(),
    "3 loops over numbers": lines(r"^\s*for \w+ in 0\.\.|\.enumerate\(\)|while \w+(\.\w+)* < "),
    "3 all loops": lines(r"^\s*(for|while|loop)\b"),
    "4 conversions and tests by hand": lines(r"fn (number|from_number|place|answer|told|number_in|link_in|outcome_of|answer_of|is_same|mark_number|mark_from|title|write_call|refusal_words|call_of|fields|from_fields)\b"),
    "5 facts in three contracts or more": facts(),
    "6 counts beside what they count": lines(r"^\s*(pub(\(\w+\))? )?(count|length|said|len|answers|bytes|capacity): usize,"),
    "7 matches on a case": lines(r"\bmatch (self|\*self|call|res|ask|phase)\b"),
    "8 lines of proofs": [l for f in proofs for l in open(f)],
    "8 answers and invariants": answers(),
}
for name, found in counts.items():
    print(f"{len(found):6}  {name}")
    if listing and not name.startswith("8"):
        for place in found:
            print(f"          {place}")
