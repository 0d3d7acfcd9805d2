#!/usr/bin/env python3
"""Checks docs/GLOSSARY.md, and writes its list of words that are defined twice.

    tests/glossary.py            writes the part of the page that stands between its marks
    tests/glossary.py --check    fails where the page isn't what would be written

In a table with the columns `Our word` and `Where`, each word has to stand in one of the files of its row, and each file has to
have one of the words. Files are named from crates/ on, or from docs/. `<!-- twice -->` is followed by the words of the top
call's clauses that have two definitions.
"""

import re

from believe import CLAUSES, Rests, own, shape
from names import CRATES, ROOT
from pages import filled, run, sentence, table

PAGE = ROOT / "docs" / "GLOSSARY.md"
CODE = re.compile(r"`([^`]+)`")


def stands(word, text):
    return re.search(rf"(?<!\w){re.escape(word)}(?!\w)", text)


def faults_of(row, words, files):
    """What is wrong with a row."""
    texts = {}
    for name in files:
        path = ROOT / name if name.startswith("docs/") else CRATES / name
        if not path.is_file():
            return [f"{name}: there is no such file"]
        texts[name] = path.read_text(encoding="utf-8")
    found = {word: {name for name, text in texts.items() if stands(word, text)} for word in words}
    faults = [f"`{word}` doesn't stand in {', '.join(files)}" for word, homes in found.items() if not homes]
    faults += [f"{name} has none of the words of its row" for name in files if not any(name in homes for homes in found.values())]
    return faults if words and files else [f"no word or no file: {row}"]


def check_rows(text):
    """Each row of the tables names words and files that are there."""
    faults, places = [], None
    for line in text.split("\n"):
        cells = [cell.strip() for cell in line.strip("|").split("|")] if line.startswith("|") else []
        if not cells:
            places = None
        elif "Our word" in cells:
            places = cells.index("Our word"), cells.index("Where")
        elif places and not line.startswith("|---"):
            faults += faults_of(line, CODE.findall(cells[places[0]]), CODE.findall(cells[places[1]]))
    if faults:
        raise SystemExit("\n".join(f"GLOSSARY.md: {fault}" for fault in faults))


def twice(_):
    """The words of the clauses that are defined in more than one file."""
    rests, homes = Rests(), {}
    for thing in dict.fromkeys(thing for clause in CLAUSES for thing in own(rests.all[clause])):
        homes.setdefault(thing.name, []).append(thing)
    rows = []
    for name in sorted(homes, key=str.lower):
        for thing in sorted(homes[name], key=lambda t: t.place) if len(homes[name]) > 1 else []:
            place = thing.place.removeprefix("crates/")
            rows.append((f"`{name}`", f"`{place}`", thing.line, sentence(thing.comment) or shape(thing)))
    return table(("Word", "File", "Line", "It says"), rows)


def page_of(text):
    """The page, with its part written anew, once its tables are right."""
    check_rows(text)
    return filled(text, {"twice": twice})


if __name__ == "__main__":
    run(PAGE, page_of)
