#!/usr/bin/env python3
"""Runs the cases in cases/ and the examples in examples/ through the built program. docs/CASES.md has the format.

    tests/cases.py [PROGRAM]

PROGRAM is crates/fiasco_run/out/fiasco_run where no other is named. Each case that fails is printed, with its place and what
differs. The last line is 'cases: N passed, M failed'. The status is 0 where no case failed. Where a file is malformed or there
is no case, nothing is run, and that is a failure.
"""
import concurrent.futures
import os
import re
import subprocess
import sys

TOP = os.path.dirname(os.path.dirname(os.path.abspath(__file__)))
SECONDS = 60
HOLE, NUMBER, NEXT, BYTE, CUT = "?", "{n}", "{n+1}", "{byte}", "\\"
MARKS = (HOLE, NUMBER, NEXT, BYTE, CUT)
PIECE = re.compile(r"[^\\{?]+|\\x[0-9a-f]{2}|\\[nrt\\]|\\$|\{n\}|\{n\+1\}|\{byte\}|\?")
ESCAPES = {"n": b"\n", "r": b"\r", "t": b"\t", "\\": b"\\"}
TEXT_LINE = re.compile(r"(?:(fronts) |([0-9]+) to ([0-9]+) )?\| ?(.*)")


class Malformed(Exception):
    """Why a file is no file of cases."""


def demand(holds, why):
    if not holds:
        raise Malformed(why)


# Text: what stands behind a bar.


def bytes_of(word):
    """Returns the bytes that a piece of a text spells."""
    if word[0] != "\\":
        return word.encode()
    return bytes([int(word[2:], 16)]) if word[1] == "x" else ESCAPES[word[1]]


def pieces_of(text):
    """Returns the pieces of a text: bytes, and marks."""
    pieces, at = [], 0
    while at < len(text):
        found = PIECE.match(text, at)
        demand(found, f"no such escape or mark: {text[at:]}")
        pieces.append(found[0] if found[0] in MARKS else bytes_of(found[0]))
        at = found.end()
    return pieces


def plain(text):
    """Returns the bytes of a text without marks."""
    pieces = pieces_of(text)
    demand(not set(MARKS) & set(pieces), f"a mark means nothing here: {text}")
    return b"".join(pieces)


class Line:
    """A line of text, once or for each number of a range."""

    def __init__(self, text, first, last):
        self.pieces = pieces_of(text)
        self.is_cut = self.pieces[-1:] == [CUT]
        if self.is_cut:
            self.pieces.pop()
        demand(CUT not in self.pieces, f"no such escape: {text}")
        self.is_counted = first is not None
        self.numbers = range(int(first), int(last) + 1) if self.is_counted else [None]
        demand(self.numbers, "the range has no number")
        self.marks = [it for it in self.pieces if it in MARKS]
        demand(self.is_counted or not set(self.marks) - {HOLE}, f"a number is named outside a range: {text}")
        demand(BYTE not in self.marks or self.numbers[-1] < 256, "a byte is at most 255")

    def holes(self):
        return self.marks.count(HOLE) * len(self.numbers)

    def texts(self, row):
        """Returns its text for each number, with the row in the hole, and without a line feed."""
        if not self.marks:
            return [b"".join(self.pieces)] * len(self.numbers)
        return [b"".join(self.piece(it, number, row) for it in self.pieces) for number in self.numbers]

    def piece(self, piece, number, row):
        if piece == HOLE:
            return row
        if piece == BYTE:
            return bytes([number])
        return b"%d" % (number + (piece == NEXT)) if piece in MARKS else piece

    def lines(self, row):
        end = b"" if self.is_cut else b"\n"
        return b"".join(text + end for text in self.texts(row))


class Block:
    """Lines, and the names of texts that stand between them."""

    def __init__(self):
        self.parts = []

    def holes(self):
        return sum(it.holes() for it in self.parts if isinstance(it, Line))

    def names(self):
        return [it for it in self.parts if not isinstance(it, Line)]

    def bytes(self, texts, row=None):
        """Returns its bytes, with the row in the hole."""
        demand(self.parts, "a block has no line")
        return b"".join(it.lines(row) if isinstance(it, Line) else texts.bytes(it) for it in self.parts)


class Texts:
    """The named texts."""

    def __init__(self, items):
        self.items = {it.name: it for it in items}
        self.used = set()

    def check(self, block, above=()):
        """Looks whether all texts that a block names are there, and none is in itself."""
        for name in block.names():
            demand(name in self.items, f"no text has the name {name}")
            demand(name not in above, f"the text {name} is in itself")
            demand(not self.items[name].block.holes(), f"the text {name} has a hole")
            self.used.add(name)
            self.check(self.items[name].block, (*above, name))

    def bytes(self, name):
        return self.items[name].block.bytes(self)


# Cases.


class Case:
    """One call of the program: what it is given, and what must come of it. The input and the output are functions, so that not
    all of them are held at once."""

    def __init__(self, name, where, words, given, status, wanted):
        self.name, self.where, self.words = name, where, words
        self.given, self.status, self.wanted = given, status, wanted

    def fault(self, program):
        """Returns what differs, or None."""
        words = [os.fsencode(program), *self.words]
        try:
            ran = subprocess.run(words, input=self.given(), stdout=subprocess.PIPE, stderr=subprocess.PIPE, timeout=SECONDS)
        except (OSError, subprocess.TimeoutExpired) as error:
            return f"it was not run to its end: {error}"
        wanted, faults = self.wanted(), []
        if ran.returncode != self.status:
            faults.append(f"the status is {ran.returncode}, and should be {self.status}")
        if ran.stdout != wanted:
            faults.append(difference(ran.stdout, wanted))
        if ran.stderr:
            faults.append(f"standard error has {shown(ran.stderr)}")
        return "\n    ".join(faults) or None


def lines_of(text):
    """Returns the lines of a text, each with its line feed where it has one."""
    return re.findall(rb".*\n|.+", text)


def difference(found, wanted):
    """Says where two outputs differ first."""
    found, wanted = lines_of(found), lines_of(wanted)
    at = 0
    while found[at:at + 1] == wanted[at:at + 1]:
        at += 1
    line, due = (shown(it[at]) if at < len(it) else "missing" for it in (found, wanted))
    return f"line {at + 1} of the output is {line}, and should be {due}"


def shown(text):
    return repr(text[:160])[1:]


# Items: a text, a case or a table, taken line by line.


class Item:
    def __init__(self, name, where):
        self.name, self.where, self.line_of = name, where, where
        self.words, self.block = None, None

    def take(self, line):
        """Takes a line: of a block, or one that begins with a keyword."""
        text = TEXT_LINE.fullmatch(line)
        word, _, rest = line.partition(" ")
        if text:
            self.take_text(*text.groups())
        elif word == "=":
            demand(self.block and rest, "a text is named outside a block")
            self.block.parts.append(rest)
        else:
            demand(word in self.KEYWORDS, f"no line of a {self.KIND} begins so: {line}")
            self.block = None
            self.KEYWORDS[word](self, rest)

    def take_text(self, fronts, first, last, text):
        demand(self.block and not fronts, "this line stands in no block")
        self.block.parts.append(Line(text, first, last))

    def take_words(self, rest):
        demand(self.words is None, "the words are told twice")
        self.words = [plain(it) for it in rest.split(" ")] if rest else []

    def new_block(self, rest):
        demand(not rest, f"nothing stands behind this word: {rest}")
        self.block = Block()
        return self.block


class Text(Item):
    KIND = "text"
    KEYWORDS = {}

    def __init__(self, name, where):
        super().__init__(name, where)
        self.new_block("")


class Single(Item):
    KIND = "case"

    def __init__(self, name, where):
        super().__init__(name, where)
        self.input, self.status, self.output = None, None, None

    def take_input(self, rest):
        demand(self.input is None, "a case has one input")
        self.input = self.new_block(rest)

    def take_status(self, rest):
        demand(self.status is None and re.fullmatch("[0-6]", rest), "a case has one status, from 0 to 6")
        self.status = int(rest)

    def take_output(self, rest):
        demand(self.output is None, "a case has one output")
        self.output = self.new_block(rest)

    KEYWORDS = {"words": Item.take_words, "input": take_input, "status": take_status, "output": take_output}

    def cases(self, texts):
        demand(self.words is not None and self.input, "the words or the input is missing")
        demand(self.status is not None and self.output, "the status or the output is missing")
        demand(not self.input.holes() and not self.output.holes(), "a hole stands in a table alone")
        for it in (self.input, self.output):
            texts.check(it)
        given, wanted = (lambda: self.input.bytes(texts)), (lambda: self.output.bytes(texts))
        given()
        demand(wanted(), "the output is empty")
        return [Case(self.name, self.where, self.words, given, self.status, wanted)]


class Row:
    """What becomes of a table's input, and what must come of it: the row stands in the hole, or in the place of lines; or a line
    of the history is dropped, doubled or exchanged with the next one."""

    def __init__(self, where, what, place, text, outcome):
        self.where, self.what, self.place, self.text = where, what, place, text
        self.status, self.wanted = outcome
        self.key = (what, place, text)

    def name(self):
        return shown(self.text) if self.what == "row" else f"{self.what} {self.text}"

    def given(self, block, texts):
        """Returns the table's input with this change."""
        in_hole = self.what == "row" and self.place is None
        demand(block.holes() == in_hole, "a row needs one hole in the input, or else lines whose place it takes")
        given = block.bytes(texts, self.text)
        if in_hole:
            return given
        return in_place(given, self.place, self.text) if self.what == "row" else with_lines(given, self.what, self.text)


def in_place(given, old, new):
    """Puts new lines in the place of old ones, which stand in the input once."""
    given, old = b"\n" + given, b"\n" + old + b"\n"
    front, found, rest = given.partition(old)
    demand(found and old not in b"\n" + rest, "these lines don't stand in the input exactly once")
    return front[1:] + b"\n" * bool(front) + new + b"\n" + rest


def with_lines(given, what, number):
    """Drops or doubles this line of the history, from 1, or exchanges it with the next one."""
    script, divider, history = given.partition(b"\n--\n")
    lines, at = lines_of(history), number - 1
    demand(divider and 0 <= at < len(lines) - (what == "exchange"), "the history has no such line")
    new = {"drop": [], "double": [lines[at]] * 2, "exchange": lines[at:at + 2][::-1]}[what]
    lines[at:at + 1 + (what == "exchange")] = new
    return script + divider + b"".join(lines)


class Table(Item):
    KIND = "table"

    def __init__(self, name, where):
        super().__init__(name, where)
        self.inputs, self.rows, self.place, self.outcome, self.unused = [], [], None, None, None

    def take_text(self, fronts, first, last, text):
        if self.block:
            super().take_text(fronts, first, last, text)
            return
        demand(self.outcome, "this line stands in no block, and behind no outcome")
        line = Line(text, first, last)
        demand(not line.is_cut and not line.holes(), "a row is a text without its line feed and without a hole")
        for row in line.texts(None):
            self.add_rows("row", fronts_of(row) if fronts else [row], self.outcome)

    def add_rows(self, what, texts, outcome):
        place = self.place if what == "row" else None
        self.rows += [Row(self.line_of, what, place, it, outcome) for it in texts]
        self.unused = None

    def take_input(self, rest):
        demand(not self.rows, "the inputs stand before the rows")
        self.inputs.append(self.new_block(rest))

    def take_at(self, rest):
        self.open_for("at")
        found = re.fullmatch(r"\| ?(.*)", rest)
        demand(found, "the lines whose place a row takes are missing")
        self.place, self.outcome = plain(found[1]), None

    def take_rows(self, rest):
        self.open_for("rows")
        self.outcome = outcome_of(rest)

    def open_for(self, what):
        demand(self.unused in (None, "at") and (self.unused, what) != ("at", "at"), "no row stands behind the line before")
        self.unused = what

    def take_change(self, what, rest):
        number, _, outcome = rest.partition(": ")
        demand(re.fullmatch("[0-9]+", number), "the number of a line of the history is missing")
        demand(not self.unused, "no row stands behind the line before")
        self.place, self.outcome = None, None
        self.add_rows(what, [int(number)], outcome_of(outcome))

    KEYWORDS = {"words": Item.take_words, "input": take_input, "at": take_at, "rows": take_rows}
    KEYWORDS.update({it: (lambda self, rest, it=it: self.take_change(it, rest)) for it in ("drop", "double", "exchange")})

    def cases(self, texts):
        demand(self.words is not None and self.inputs, "the words or the input is missing")
        demand(self.rows and not self.unused, "a row is missing")
        demand(len({it.key for it in self.rows}) == len(self.rows), "a row stands there twice")
        for it in self.inputs:
            texts.check(it)
        return [self.case(texts, block, row) for row in self.rows for block in self.inputs]

    def case(self, texts, block, row):
        given = lambda: row.given(block, texts)
        with_place(row.where, given)
        return Case(f"{self.name}: {row.name()}", row.where, self.words, given, row.status, lambda: row.wanted)


def outcome_of(text):
    """Reads a status and the line that must come out."""
    found = re.fullmatch(r"([0-6]) (.+)", text)
    demand(found, "a status from 0 to 6 and the line that must come out are missing")
    return int(found[1]), plain(found[2]) + b"\n"


def fronts_of(text):
    """Returns the fronts of a text that end within its last line, and the whole."""
    first = text.rfind(b"\n") + 1
    demand(first < len(text), "the last line has no byte")
    return [text[:end] for end in range(first + 1, len(text) + 1)]


# Files.


def with_place(where, call):
    """Calls, and says the place of what is malformed."""
    try:
        return call()
    except Malformed as fault:
        raise fault if str(fault).startswith(("cases/", "examples/")) else Malformed(f"{where}: {fault}") from None


def read_line(line, where, items):
    demand(re.fullmatch(rb"[ -~]*", line), "a byte isn't one of 32 to 126: write \\xHH")
    demand(not line.endswith(b" "), "a space ends the line: write \\x20")
    line = line.decode()
    word, _, name = line.partition(" ")
    kind = {"text": Text, "case": Single, "table": Table}.get(word)
    if kind:
        demand(name, "the name is missing")
        items.append(kind(name, where))
    elif line and line[0] != ";":
        demand(items, "a text, a case or a table comes first")
        items[-1].line_of = where
        items[-1].take(line)


def read_cases(folder):
    """Returns the cases of all files of a folder."""
    items = []
    for name in sorted(os.listdir(folder)):
        demand(name.endswith(".txt"), f"cases/{name}: a file of cases is a .txt file")
        of_file = []
        for number, line in enumerate(contents(os.path.join(folder, name)).split(b"\n"), 1):
            where = f"cases/{name}:{number}"
            with_place(where, lambda: read_line(line, where, of_file))
        items += of_file
    return cases_of(items)


def cases_of(items):
    names, cases = set(), []
    for it in items:
        demand(it.name not in names, f"{it.where}: the name stands there twice: {it.name}")
        names.add(it.name)
    texts = Texts([it for it in items if isinstance(it, Text)])
    for it in items:
        if not isinstance(it, Text):
            cases += with_place(it.where, lambda: it.cases(texts))
    for it in texts.items.values():
        demand(it.name in texts.used, f"{it.where}: no case uses this text")
    return cases


def read_examples(folder):
    """Returns a case for each example. NAME.script is run, and NAME.check is checked; NAME.report is what must come out. The
    status is 0, or else what NAME.status says."""
    names, cases = sorted(os.listdir(folder)), []
    for name in names:
        stem, kind = os.path.splitext(name)
        if kind in (".report", ".status"):
            demand({stem + ".script", stem + ".check"} & set(names), f"examples/{name}: there is no such example")
            continue
        demand(kind in (".script", ".check"), f"examples/{name}: it is no example")
        demand(stem + ".report" in names, f"examples/{name}: its report is missing")
        given, wanted = contents(os.path.join(folder, name)), contents(os.path.join(folder, stem + ".report"))
        status = int(contents(os.path.join(folder, stem + ".status"))) if stem + ".status" in names else 0
        words = [b"run" if kind == ".script" else b"check"]
        cases.append(Case(f"the example {stem}", f"examples/{name}", words, lambda it=given: it, status, lambda it=wanted: it))
    return cases


def contents(path):
    with open(path, "rb") as it:
        return it.read()


def read_all():
    cases = read_cases(os.path.join(TOP, "cases"))
    demand(cases, "cases/: there is no case")
    return cases + read_examples(os.path.join(TOP, "examples"))


def main(words):
    program = os.path.abspath(words[0]) if words else os.path.join(TOP, "crates/fiasco_run/out/fiasco_run")
    try:
        cases = read_all()
    except (Malformed, OSError, ValueError) as fault:
        print(f"MALFORMED {fault}")
        print("cases: 0 passed, 1 failed")
        return 1
    with concurrent.futures.ThreadPoolExecutor(len(os.sched_getaffinity(0))) as pool:
        faults = list(pool.map(lambda case: case.fault(program), cases))
    for case, fault in zip(cases, faults):
        if fault:
            print(f"FAILED {case.name}\n    {case.where}\n    {fault}")
    failed = sum(fault is not None for fault in faults)
    print(f"cases: {len(cases) - failed} passed, {failed} failed")
    return 1 if failed else 0


if __name__ == "__main__":
    sys.exit(main(sys.argv[1:]))
