#!/usr/bin/env python3
"""Compares the number columns of docs/SECTIONS.md with `left_table`, `left_thread` and `left_ready` in crates/*/specs.

A cell is a list of cases, `CASE where CONDITION; ..; else CASE`: the first whose condition holds counts. An empty cell is 0. Both
sides are computed for many sizes and words, and must agree; each location must stand on both sides.
"""

import itertools
import os
import re
import sys

TOP = os.path.join(os.path.dirname(os.path.abspath(__file__)), "..")
LEFT = {"Table": "left_table", "Thread": "left_thread", "Ready": "left_ready"}
SECTIONS = {
    "Send": "crates/k_ipc/specs/SendTable.antt",
    "Receive": "crates/k_ipc/specs/ReceiveTable.antt",
    "Pick": "crates/k_ipc/specs/ReceiveTable.antt",
    "Create": "crates/k_threads/specs/CreateTable.antt",
    "Destroy": "crates/k_threads/specs/DestroyTable.antt",
    "Switch": "crates/k_switch/specs/Switches.antt",
}


def there(path):
    """The file, under its own name or that of a table."""
    table = path.replace(".antt", "Table.antt")
    return table if os.path.exists(os.path.join(TOP, table)) else path


SECTIONS = {section: there(path) for section, path in SECTIONS.items()}


class Wrong(Exception):
    """A cell or a definition that can't be read."""


# THE DEFINITIONS: the lines `name patterns = expression` of a file of specs/, computed

TOKEN = re.compile(r"\s*(\d+|[^\W\d][\w-]*(?:\.[^\W\d][\w-]*|\.\d+)*|==|&&|\|\||[-+*()=])")
WORDS = {"if", "then", "else", "="}
LINE = re.compile(r"^([a-z_]\w*)((?: [^:=]+)?) = (.*)$")


def tokens(text):
    text = text.split("--")[0].rstrip()
    found, at = [], 0
    while at < len(text):
        match = TOKEN.match(text, at)
        if not match:
            raise Wrong("can't read: " + text)
        found.append(match.group(1))
        at = match.end()
    return found


class Parser:
    """Expressions: ('num', n), ('name', x), ('call', f, args), ('if', a, b, c), ('op', o, a, b)."""

    LEVELS = [["||"], ["&&"], ["=="], ["+", "-"], ["*"]]

    def __init__(self, found):
        self.found, self.at = found, 0

    def peek(self):
        return self.found[self.at] if self.at < len(self.found) else None

    def take(self, want=None):
        token = self.peek()
        if token is None or (want and token != want):
            raise Wrong("expected %s in: %s" % (want, " ".join(self.found)))
        self.at += 1
        return token

    def expression(self, level=0):
        if self.peek() == "if":
            self.take()
            test = self.expression()
            self.take("then")
            yes = self.expression()
            self.take("else")
            return ("if", test, yes, self.expression())
        if level == len(self.LEVELS):
            return self.call()
        left = self.expression(level + 1)
        while self.peek() in self.LEVELS[level]:
            left = ("op", self.take(), left, self.expression(level + 1))
        return left

    def call(self):
        parts = []
        while self.peek() and self.peek() not in WORDS and not re.match(r"[-+*)=&|]", self.peek()):
            parts.append(self.atom())
        if not parts:
            raise Wrong("nothing to compute in: " + " ".join(self.found))
        return parts[0] if len(parts) == 1 else ("call", parts[0], parts[1:])

    def atom(self):
        token = self.take()
        if token == "(":
            inner = self.expression()
            self.take(")")
            return inner
        return ("num", int(token)) if token.isdigit() else ("name", token)

    def patterns(self):
        found = []
        while self.peek():
            found.append(self.atom())
        return found


def is_constructor(name):
    return name.split(".")[-1][0].isupper()


def bare(name):
    return name.split(".")[-1]


def definitions(path):
    """name -> list of (patterns, expression text)"""
    found = {}
    with open(os.path.join(TOP, path), encoding="utf-8") as lines:
        for line in lines:
            match = LINE.match(line.rstrip("\n"))
            if match:
                found.setdefault(match.group(1), []).append((match.group(2), match.group(3)))
    return found


class Specs:
    def __init__(self, path, given):
        self.found, self.given = definitions(path), given

    def apply(self, name, arguments):
        if name in self.given:
            return self.given[name](*arguments)
        for patterns, text in self.found.get(name, []):
            names = {}
            shapes = Parser(tokens(patterns)).patterns()
            if len(shapes) != len(arguments):
                continue
            if all(self.fits(shape, value, names) for shape, value in zip(shapes, arguments)):
                return self.value(Parser(tokens(text)).expression(), names)
        raise Wrong("no line of %s for %s" % (name, arguments))

    def fits(self, shape, value, names):
        if shape[0] == "num":
            return value == shape[1]
        if shape[0] == "name" and not is_constructor(shape[1]):
            if shape[1] == "zero":
                return value == 0
            names[shape[1]] = value
            return True
        head, parts = (shape[1], []) if shape[0] == "name" else (shape[1][1], shape[2])
        if head == "suc":
            return value > 0 and self.fits(parts[0], value - 1, names)
        if not isinstance(value, tuple) or value[0] != bare(head):
            return False
        return all(self.fits(p, v, names) for p, v in zip(parts, value[1:]))

    def value(self, term, names):
        kind = term[0]
        if kind == "num":
            return term[1]
        if kind == "if":
            return self.value(term[2] if self.value(term[1], names) else term[3], names)
        if kind == "op":
            left, right = self.value(term[2], names), self.value(term[3], names)
            return OPERATORS[term[1]](left, right)
        if kind == "name":
            return self.name(term[1], names)
        head = term[1][1]
        arguments = [self.value(part, names) for part in term[2]]
        return tuple([bare(head)] + arguments) if is_constructor(head) else self.apply(head, arguments)

    def name(self, name, names):
        first, *fields = name.split(".")
        if first in names:
            value = names[first]
            for field in fields:
                value = value[field]
            return value
        return (bare(name),) if is_constructor(name) else self.apply(name, [])


OPERATORS = {
    "+": lambda a, b: a + b,
    "-": lambda a, b: max(a - b, 0),
    "*": lambda a, b: a * b,
    "==": lambda a, b: a == b,
    "&&": lambda a, b: a and b,
    "||": lambda a, b: a or b,
}


# THE LOCATIONS: those of the lines of `ask_of`, by the name of the innermost constructor

def locations(specs):
    name = "ask_of" if "ask_of" in specs.found else "next_of"
    found = {}
    for patterns, _ in specs.found[name]:
        shape = Parser(tokens(patterns)).patterns()[-1]
        wrapped = shape
        while wrapped[0] == "call" and any(is_shape(part) for part in wrapped[2]):
            wrapped = next(part for part in wrapped[2] if is_shape(part))
        head = wrapped[1] if wrapped[0] == "name" else wrapped[1][1]
        found[bare(head)] = shape
    return found


def is_shape(part):
    return part[0] == "call" or (part[0] == "name" and is_constructor(part[1]))


def located(shape, words, inner):
    """The location as a value: `inner` stands for its one variable, where the document names a kind of it."""
    if shape[0] == "name":
        if is_constructor(shape[1]):
            return (bare(shape[1]),)
        return (inner,) if inner else words.get(shape[1], 0)
    return tuple([bare(shape[1][1])] + [located(part, words, inner) for part in shape[2]])


# THE DOCUMENT

def rows():
    """(section, location, kinds, column, cell) of each table"""
    section, header, found = None, None, []
    with open(os.path.join(TOP, "docs", "SECTIONS.md"), encoding="utf-8") as lines:
        for line in lines:
            if line.startswith("## "):
                section, header = line[3:].strip(), None
            if not line.startswith("|") or section not in SECTIONS:
                continue
            cells = [cell.strip() for cell in line.strip().strip("|").split("|")]
            if header is None:
                header = cells
            elif not set(cells[0]) <= set("- "):
                location, _, rest = cells[0].split(", only")[0].partition(" ")
                kinds = [kind.strip().capitalize() for kind in rest.split(",")] if rest else [None]
                found.append((section, location, kinds, dict(zip(header, cells))))
    return found


CONDITIONS = {
    "the receiver was on": lambda e: e["on"],
    "m is 0": lambda e: e["m"] == 0,
    "the timeout is zero": lambda e: e["zero"],
    "it is open": lambda e: e["from"] == ("None",),
    "a thread is to be started": lambda e: e["from"] != ("None",),
}


def cell_value(cell, sizes):
    if not cell:
        return 0
    for case in cell.split(";"):
        formula, _, conditions = case.strip().partition(" where ")
        if formula.startswith("else "):
            formula = formula[len("else "):]
        if all(CONDITIONS[c.strip()](sizes) for c in conditions.split(" and ") if c):
            text = re.sub(r"(\d)\s*([A-Za-z(])", r"\1*\2", formula)
            if not re.fullmatch(r"[\w\s+*()-]+", text):
                raise Wrong("can't read the formula " + formula)
            return eval(text, {"__builtins__": {}}, dict(sizes))  # digits, letters and + - * ( ) alone
    raise Wrong("no case of the cell holds: " + cell)


# THE COMPARISON

# the locations at which there may be no candidate
BEFORE_CANDIDATES = {"LoadOwn", "LoadPicking"}


def samples():
    """Sizes, words and calls."""
    for on, zero, closed, m in itertools.product([False, True], [False, True], [False, True], [0, 1, 2, 5]):
        for count, entries, visited, victim in [(2, 1, 0, 1), (2, 1, 1, 0), (5, 3, 2, 4), (7, 6, 3, 1), (9, 4, 8, 3)]:
            yield {
                "on": on, "zero": zero, "from": ("Some", 0) if closed else ("None",), "m": m, "n": entries, "N": count,
                "A": 6 * (count - 1) + 5, "visited": visited, "victim": victim,
                "k": sum(1 for j in range(visited, count) if j != victim),
            }


def spec_value(specs_of, section, location, kind, left, sizes):
    given = {
        "admitted": lambda source, entries: sizes["m"],
        "candidates_from": lambda c, h, e: sizes["m"],
        "length": len,
        "suc": lambda a: a + 1,
        "nat_lt": lambda a, b: a < b,
        "not": lambda a: not a,
        "is_some": lambda o: o != ("None",),
    }
    specs = Specs(SECTIONS[section], given)
    queue = {"entries": [None] * sizes["n"], "room": sizes["N"]}
    word = {"on": sizes["on"], "priority": 0}
    names = {
        "c": {"zero": sizes["zero"], "from": sizes["from"], "count": sizes["N"], "who": {"number": sizes["victim"]}, "start": sizes["from"]},
        "h": {"queue": queue, "senders": queue},
        "there": False, "own": word,
    }
    words = {"w": word, "seen": word, "visited": sizes["visited"], "e": None, "waiter": {"number": sizes["visited"], "seen": word}}
    shape = specs_of[section].get(location)
    if shape is None:
        raise Wrong("the specs have no such location")
    value = located(shape, words, kind)
    if left not in specs.found:
        return 0
    arity = Parser(tokens(specs.found[left][0][0])).patterns()
    arguments = [names.get(p[1]) if p[0] == "name" and p[1] in names else None for p in arity[:-1]]
    return specs.apply(left, arguments + [value])


def main():
    wrong, seen = [], {section: set() for section in SECTIONS}
    shapes = {section: locations(Specs(path, {})) for section, path in SECTIONS.items()}
    for section, location, kinds, cells in rows():
        seen[section].add(location)
        for kind, (column, left), sizes in itertools.product(kinds, LEFT.items(), samples()):
            if sizes["m"] == 0 and location not in BEFORE_CANDIDATES:
                continue
            try:
                told = cell_value(cells.get(column, ""), sizes)
                is_left = spec_value(shapes, section, location, kind, left, sizes)
            except (Wrong, KeyError, TypeError) as error:
                wrong.append("%s, %s, %s: %s" % (section, location, column, error))
                break
            if told != is_left:
                wrong.append("%s, %s, %s: the document has %s, which is %d; the specs have %d" % (section, location, column, cells.get(column, ""), told, is_left))
                break
    named = {path: set() for path in SECTIONS.values()}
    for section, path in SECTIONS.items():
        named[path] |= seen[section]
    for section, path in SECTIONS.items():
        for location in sorted(set(shapes[section]) - named[path] - {"Ended"}):
            wrong.append("%s, %s: the document has no such row" % (section, location))
    for line in sorted(set(wrong)):
        print(line)
    print("columns: %d rows, %d wrong" % (len(rows()), len(set(wrong))))
    return 1 if wrong else 0


if __name__ == "__main__":
    sys.exit(main())
