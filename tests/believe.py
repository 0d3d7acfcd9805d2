#!/usr/bin/env python3
"""Writes docs/BELIEVE.md: the definitions on which the clauses of the top call rest.

    tests/believe.py            writes the parts of the page that stand between its marks
    tests/believe.py --check    fails where the page isn't what would be written

The page keeps its prose. `<!-- counts -->` is followed by the counts, `<!-- alone: NAME .. -->` by how many definitions stand
there for these names only, and `<!-- words: CRATE/FILE .. -->` by the definitions of these files, each part up to `<!-- end -->`.
A crate without a file is all of its files that no other mark names.
"""

from collections import defaultdict

from contracts import functions
from names import CRATES, ROOT, parts, reached
from pages import filled, marks_of, run, sentence, table

PAGE = ROOT / "docs" / "BELIEVE.md"
TOP = CRATES / "fiasco_run" / "src" / "serve.rt"
CLAUSES = ("run", "check", "big", "served", "exact", "later")
LISTED = ("run", "check", "big")


def own(things):
    """Those of the project, without the names of libraries."""
    return [thing for thing in things if not isinstance(thing, str)]


def is_type(thing):
    return thing.kind in ("type", "of a trait")


def without(first, left_out):
    """What is reached where some things are left out."""
    found, todo = set(), list(first)
    while todo:
        thing = todo.pop()
        if thing not in found and thing not in left_out:
            found.add(thing)
            todo.extend(parts(thing))
    return found


class Rests:
    """What each clause of the top call rests on."""

    def __init__(self):
        top = next(f for f in functions(TOP) if f.name == "top")
        self.first = {clause: top.named_by(clause) for clause in CLAUSES}
        self.all = {clause: reached(self.first[clause]) for clause in CLAUSES}
        self.listed = own(reached([thing for clause in LISTED for thing in self.first[clause]]))
        self.marks = defaultdict(list)
        for clause in LISTED:
            for thing in own(self.all[clause]):
                self.marks[thing].append(clause)

    def counts(self):
        rows = []
        for clause in CLAUSES:
            things = own(self.all[clause])
            types = [thing for thing in things if is_type(thing)]
            lines = sum(thing.words.count("\n") + 1 for thing in things)
            crates = len({thing.crate for thing in things if not is_type(thing)})
            library = len(self.all[clause]) - len(things)
            rows.append((f"`{clause}`", len(things) - len(types), crates, len(types), lines, library))
        return table(("Clause", "Definitions", "In crates", "Types", "Lines of both", "Words of the library"), rows)

    def alone(self, names):
        """For each name: how many definitions each clause would rest on no more without it."""
        rows = []
        for name in names:
            home = [thing for thing in self.listed if thing.name == name]
            if not home:
                raise SystemExit(f"BELIEVE.md: no clause rests on `{name}`")
            cells = []
            for clause in LISTED:
                all_of = set(own(self.all[clause]))
                left = without(self.first[clause], set(home))
                cells.append(sum(not is_type(thing) for thing in all_of - left))
            rows.append((f"`{name}`", home[0].crate, *cells))
        return table(("Word", "Crate", *(f"For `{clause}`" for clause in LISTED)), rows)

    def words(self, homes, named):
        """The tables of the files that a mark names, each in the order in which they are met."""
        files = []
        for home in homes:
            crate, _, file = home.partition("/")
            mine = [t for t in self.listed if t.crate == crate and (home_of(t) == home if file else home_of(t) not in named)]
            files += dict.fromkeys(thing.path for thing in mine)
            if not mine:
                raise SystemExit(f"BELIEVE.md: no clause rests on anything of {home}")
        lines = []
        for path in files:
            things = [thing for thing in self.listed if thing.path == path]
            lines += [f"`{path.relative_to(ROOT)}`: {len(things)}", ""]
            lines += table(("Word", "Lines", "It says", "For"), [self.row(thing) for thing in things]) + [""]
        return lines[:-1]

    def row(self, thing):
        span = str(thing.line) if thing.line == thing.last else f"{thing.line} to {thing.last}"
        return f"`{thing.name}`", span, sentence(thing.comment) or shape(thing), " ".join(self.marks[thing])


def shape(thing):
    """The type of a definition, where no comment says more."""
    head = thing.words.split("\n")[0].removesuffix(" where").split(thing.name, 1)[1].strip()
    return f"`{head.removeprefix(': ')}`"


def home_of(thing):
    """The name that a mark has for a thing's file."""
    return f"{thing.crate}/{thing.path.stem}"


def page_of(text):
    """The page, with its parts written anew."""
    rests = Rests()
    marks = marks_of(text)
    named = {home for kind, rest in marks if kind == "words" for home in rest if "/" in home}
    covered = named | {home for kind, rest in marks if kind == "words" for home in rest}
    for thing in rests.listed:
        if home_of(thing) not in covered and thing.crate not in covered:
            raise SystemExit(f"BELIEVE.md: no part is for {home_of(thing)}")
    makers = {
        "counts": lambda rest: rests.counts(),
        "alone": rests.alone,
        "words": lambda rest: rests.words(rest, named),
    }
    return filled(text, makers)


if __name__ == "__main__":
    run(PAGE, page_of)
