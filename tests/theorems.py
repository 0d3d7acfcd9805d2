#!/usr/bin/env python3
"""Writes docs/THEOREMS.md: what is proved, by the stages through which a call of the program goes.

    tests/theorems.py            writes the parts of the page that stand between its marks
    tests/theorems.py --check    fails where the page isn't what would be written

`<!-- functions: CRATE/FILE .. -->` is followed by the functions of these files, or by those named in `CRATE/FILE:NAME,NAME`;
`<!-- laws: CRATE .. -->` by all laws of these crates, if they have any; `<!-- clauses: CRATE/FILE:NAME -->` by the clauses of
one function; `<!-- counts -->` by how many laws there are. Each law of a file `laws.rt` has to stand in some part. What a
function says is the first sentence of the comment over it.
"""

import re

from contracts import functions
from names import CRATES, ROOT, comment_above, lines_of
from pages import filled, marks_of, run, sentence, table

PAGE = ROOT / "docs" / "THEOREMS.md"
MOST_WORDS = 4


def laws():
    """All law functions: those of the crates' files of laws that have a contract."""
    return [f for path in sorted(CRATES.glob("*/src/laws.rt")) for f in functions(path) if f.clauses]


def chosen(word):
    """The functions that a word of a mark names."""
    file, _, names = word.partition(":")
    crate, _, stem = file.partition("/")
    path = CRATES / crate / "src" / f"{stem}.rt"
    found = [f for f in functions(path) if f.clauses] if path.exists() else []
    wanted = names.split(",") if names else [f.name for f in found]
    missing = [name for name in wanted if name not in [f.name for f in found]]
    if missing or not found:
        raise SystemExit(f"THEOREMS.md: {file} has no contract of {', '.join(missing) or 'anything'}")
    return [f for f in found if f.name in wanted]


def is_defined(thing):
    return not isinstance(thing, str) and thing.kind in ("definition", "record")


def weight(thing):
    """Relations come first, then functions, then what is only a kind of value."""
    head = thing.words.split("\n")[0]
    is_kind = thing.kind == "record" and "(" not in head
    is_relation = not is_kind and head.removesuffix(" where").endswith("Type 0")
    return 2 if is_kind else 0 if is_relation else 1


def cited(function, clauses):
    """The definitions that some clauses name."""
    things = dict.fromkeys(t for clause in clauses for t in function.named_by(clause) if is_defined(t))
    names = [f"`{t.name}`" for t in sorted(things, key=weight)]
    return ", ".join(names[:MOST_WORDS]) + (" .." if len(names) > MOST_WORDS else "")


def lemmas(function):
    """The files of lemmas that the proof of a function cites."""
    home = CRATES / function.crate / "proofs"
    stem = function.path.relative_to(CRATES / function.crate / "src").with_suffix("")
    answers = [path for folder in sorted((home / stem).rglob(function.name)) for path in sorted(folder.glob("*.antt"))]
    text = "\n".join("\n".join(lines_of(path)) for path in answers)
    found = re.findall(r"use Rattle\.(\w+)\.proofs\.([A-Z]\w*)", text)
    at = function.line - 1
    while lines_of(function.path)[at - 1].lstrip().startswith("#["):
        at -= 1
        found += [(function.crate, name) for name in re.findall(r"proofs::(\w+)::", lines_of(function.path)[at])]
    names = dict.fromkeys(name if crate == function.crate else f"{crate}: {name}" for crate, name in found if crate != "std")
    return ", ".join(names) or ("its answers" if text else "the check alone")


def row(function):
    if not function.comment:
        raise SystemExit(f"{function.path.relative_to(ROOT)}: `{function.name}` has no comment")
    clauses = ", ".join(f"`{name}`" for name in function.clauses if name) or "one"
    words = cited(function, function.clauses)
    return f"`{function.name}`", function.line, sentence(function.comment), clauses, words, lemmas(function)


HEADS = ("Function", "Line", "It says", "Clauses", "By these definitions", "Lemmas in")


def rows(words):
    """The tables of some functions, one for each file."""
    return tables(function for word in words for function in chosen(word))


def law_rows(crates):
    return tables(law for crate in crates for law in laws() if law.crate == crate)


def tables(found):
    lines, files = [], {}
    for function in found:
        files.setdefault(function.path, []).append(function)
    for path, found in files.items():
        lines += [f"`{path.relative_to(ROOT)}`", "", *table(HEADS, [row(f) for f in found]), ""]
    return lines[:-1]


def said_of(function, name):
    """What a clause says: the comment of the relation that it names, or that over the clause, or that of another word."""
    things = [t for t in function.named_by(name) if not isinstance(t, str)]
    relations = [t.comment for t in things if is_defined(t) and weight(t) == 0]
    lines = lines_of(function.path)
    at = next(i for i in range(function.line, len(lines)) if lines[i].lstrip().startswith(f"ensures {name} "))
    said = [*relations[:1], comment_above(lines, at, "//"), *(t.comment for t in things)]
    return sentence(next(filter(None, said)))


def clause_rows(words):
    """The clauses of one function."""
    (function,) = chosen(words[0])
    found = [(f"`{name}`", said_of(function, name), cited(function, [name])) for name in function.clauses]
    place = f"`{function.path.relative_to(ROOT)}`, line {function.line}"
    return [place, "", *table(("Clause", "It says", "By these definitions"), found)]


def counts(words):
    """How many laws there are, by crate."""
    by_crate = {}
    for law in laws():
        by_crate.setdefault(law.crate, []).append(law)
    found = [(crate, len(mine), sum(len(law.clauses) for law in mine)) for crate, mine in by_crate.items()]
    total = ("all", sum(row[1] for row in found), sum(row[2] for row in found))
    return table(("Crate", "Laws", "Clauses"), found + [total])


def page_of(text):
    """The page, with its parts written anew."""
    crates = {crate for kind, words in marks_of(text) if kind == "laws" for crate in words}
    lost = [f"{law.crate} {law.name}" for law in laws() if law.crate not in crates]
    if lost:
        raise SystemExit(f"THEOREMS.md: no part is for {', '.join(lost)}")
    return filled(text, {"functions": rows, "laws": law_rows, "clauses": clause_rows, "counts": counts})


if __name__ == "__main__":
    run(PAGE, page_of)
