#!/usr/bin/env python3
"""Makes the tables of docs/LOCATIONS.md: of each fact what it says, and of each location its facts.

    tests/locations.py [--check]

What a fact says is read from the comments in crates/k_board/specs/Facts.antt, and the facts of a location from
crates/k_board/specs/Places.antt. Why a fact lasts is written in the page, one line a fact, and stays; the first table is checked
to have each fact once. With `--check` nothing is written, and a page that would change is a failure.
"""

import re
import sys
from pathlib import Path

ROOT = Path(__file__).resolve().parent.parent
SPECS = ROOT / "crates/k_board/specs"
PAGE = ROOT / "docs/LOCATIONS.md"
FACT = re.compile(r"^  ([A-Z]\w*) :[^-]*?(?:-- (.*))?$", re.M)
KINDS = {
    "undecided": "Me Fresh Begun Free", "shielded": "Me Fresh Begun Kept", "with_reply": "Me Called Settled Kept Told",
    "settling": "Me Called Settled Settling", "killed": "Gone HoldsTable Me Called Settled Kept Told",
    "visiting": "Gone HoldsTable Me Called Settled Kept Told Vacant Visited HoldsThread",
}
TITLES = {"send": "A send", "receive": "A receive, and a pick", "create": "A create", "destroy": "A destroy",
          "alone": "A thread outside of any section", "switch": "A switch"}


def facts():
    text = (SPECS / "Facts.antt").read_text()
    data = text[text.index("pub data Fact"):text.index("\n-- WORDS")]
    data = re.sub(r":\s*([^\n]*→)\n\s+Fact", r": \1 Fact", data)
    return [(name, says or "") for name, says in FACT.findall(data)]


def named(rest, names):
    found = []
    for word in re.findall(r"sender c\.manner|begins c\.picks|[A-Za-z_]\w*", rest):
        if word in KINDS:
            found += KINDS[word].split()
        elif word == "sender c.manner":
            found += ["Me", "Called", "Settled", "(by its manner)"]
        elif word == "begins c.picks":
            found += ["Me", "(by whether it is a pick)"]
        elif word in names:
            found.append(word)
    return list(dict.fromkeys(found))


def place(pattern):
    every = re.findall(r"(?:\w+\.)?([A-Z]\w*)", pattern)
    words = [w for w in every if w not in ("Outside", "Locked", "Pushing", "Victim", "Visit")] or every
    return " ".join([words[0]] + [w.lower() for w in words[1:]])


def locations(names):
    text = re.sub(r"\n {4,}", " ", (SPECS / "Places.antt").read_text())
    tables = {}
    for section, pattern, rest in re.findall(r"^facts_(\w+) (.*?) = (.*)$", text, re.M):
        if section in TITLES:
            tables.setdefault(section, []).append((place(pattern), named(rest, names)))
    return tables


def page():
    text = PAGE.read_text()
    known = facts()
    names = [name for name, _ in known]
    told = re.findall(r"^\| `(\w+)` \|", text[:text.index("<!-- locations -->")], re.M)
    odd = sorted(set(names) ^ set(told))
    if odd:
        sys.exit(f"LOCATIONS.md: the table of facts differs by {', '.join(odd)}")
    rows = []
    for section, lines in locations(set(names)).items():
        rows += [f"### {TITLES[section]}", "", "| Location | Its facts |", "|---|---|"]
        rows += [f"| {where} | {', '.join(f if f.startswith('(') else f'`{f}`' for f in found) or 'none'} |" for where, found in lines]
        rows.append("")
    head, tail = text.split("<!-- locations -->")[0], text[text.index("<!-- end -->"):]
    return head + "<!-- locations -->\n\n" + "\n".join(rows) + tail


new = page()
if "--check" in sys.argv:
    if new != PAGE.read_text():
        sys.exit("LOCATIONS.md: not as tests/locations.py makes it")
else:
    PAGE.write_text(new)
