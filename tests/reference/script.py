"""The script: programs, threads and the schedule. Only good scripts are read; a bad one raises BadScript.

Also where a thread stands in its program: `Position.next_phase` takes in the last reply and gives what comes next.
"""

from dataclasses import dataclass, field
from typing import Optional

import calls
from calls import Create, Destroy, Receive, Send, Told, Work
from words import Message, ThreadId

LONGEST = 4_000_000
ENDLESS = 18_446_744_073_709_551_615


class BadScript(Exception):
    """The reader tells the line, but only some of the reasons as the rules name them."""


class TooLong(BadScript):
    def __init__(self, weight: int):
        super().__init__(f"refused too long {weight}")


@dataclass(frozen=True)
class Operation:
    """The kind is the first word of its line. `who` is a number, or last, or made; `low` and `high` are numbers, or
    got0 or got1. `count` is of work or repeat."""

    kind: str
    who: object = None
    low: object = 0
    high: object = 0
    zero: bool = False
    program: int = 0
    priority: int = 0
    count: int = 0


@dataclass
class Program:
    name: str
    operations: list = field(default_factory=list)


@dataclass
class ThreadLine:
    priority: int
    program: int


@dataclass
class AtLine:
    step: int
    what: str  # start or slice
    number: int


@dataclass
class Item:
    """Steps of a carrier, or a park where there is no count."""

    carrier: int
    count: Optional[int]


@dataclass
class Script:
    version: int = 1
    table: int = 0
    carriers: int = 1
    show_steps: bool = False
    aged: dict = field(default_factory=dict)
    programs: list = field(default_factory=list)
    threads: list = field(default_factory=list)
    at_lines: list = field(default_factory=list)
    turns: list = field(default_factory=list)

    def start(self, program: int, me: ThreadId) -> "Position":
        return Position(self, program, me)

    def sum_of(self, program: int, weigh, turn: int, end: int, seen: Optional[dict] = None) -> int:
        """A weight of a program: each operation's, with `turn` more for each turn of a repeat and `end` for the end."""
        seen = {} if seen is None else seen
        if program not in seen:
            stack = [0]
            counts = []
            for op in self.programs[program].operations:
                if op.kind == "repeat":
                    counts.append(op.count)
                    stack.append(turn)
                elif op.kind == "again":
                    inner = stack.pop()
                    stack[-1] += inner * counts.pop()
                else:
                    stack[-1] += weigh(op)
                    if op.kind == "create":
                        stack[-1] += self.sum_of(op.program, weigh, turn, end, seen)
            seen[program] = stack[0] + end
        return seen[program]

    def weight(self) -> int:
        def weigh(op: Operation) -> int:
            return {"reply": 32, "destroy": 16 * self.table + 32, "work": op.count}.get(op.kind, 16)

        seen: dict = {}
        return min(ENDLESS, sum(self.sum_of(line.program, weigh, 1, 4, seen) for line in self.threads))

    def phases(self) -> int:
        def weigh(op: Operation) -> int:
            return {"reply": 2, "work": 0}.get(op.kind, 1)

        seen: dict = {}
        return min(ENDLESS, sum(self.sum_of(line.program, weigh, 0, 1, seen) for line in self.threads))


class Position:
    """Where a thread stands in its program, with what its program may name."""

    def __init__(self, script: Script, program: int, me: ThreadId):
        self.script, self.program = script, program
        self.index = 0
        self.repeats: list = []  # of each open repeat: where its body begins, and the turns after this one
        self.last, self.made, self.got = me, me, Message(0, 0)
        self.replying = False  # the phase given last is that of a reply

    def who(self, named: object) -> ThreadId:
        if named == "last":
            return self.last
        if named == "made":
            return self.made
        return ThreadId(named, 1)

    def value(self, named: object) -> int:
        if named == "got0":
            return self.got.low
        if named == "got1":
            return self.got.high
        return named

    def next(self, reply: Optional[Told]) -> object:
        """The next phase, or work. The reply is that to the phase before; None at the start and after work."""
        if reply is not None and reply.kind == "got":
            self.last, self.got = reply.id, reply.message
        if reply is not None and reply.kind == "made":
            self.made = reply.id
        replying, self.replying = self.replying, False
        if replying and reply is not None and reply.kind == "sent":
            return Receive(None, False)
        operations = self.script.programs[self.program].operations
        while self.index < len(operations):
            op = operations[self.index]
            self.index += 1
            if op.kind == "repeat":
                self.repeats.append([self.index, op.count - 1])
            elif op.kind == "again":
                if self.repeats[-1][1] > 0:
                    self.repeats[-1][1] -= 1
                    self.index = self.repeats[-1][0]
                else:
                    self.repeats.pop()
            else:
                return self.phase_of(op)
        return calls.END

    def phase_of(self, op: Operation) -> object:
        message = Message(self.value(op.low), self.value(op.high))
        match op.kind:
            case "send":
                return Send(self.who(op.who), message, op.zero, "plain")
            case "call":
                return Send(self.who(op.who), message, op.zero, "joined")
            case "reply":
                self.replying = True
                return Send(self.last, message, op.zero, "plain" if self.script.version == 1 else "reply")
            case "receive":
                return Receive(self.who(op.who), op.zero)
            case "wait":
                return Receive(None, op.zero)
            case "create":
                return Create(op.program, op.priority)
            case "destroy":
                return Destroy(self.who(op.who))
            case "work":
                return Work(op.count)
        raise AssertionError(op.kind)

    def next_phase(self, reply: Optional[Told]) -> object:
        """The next phase, with all work before it passed over."""
        phase = self.next(reply)
        while isinstance(phase, Work):
            phase = self.next(None)
        return phase


def number(text: str, low: int, high: int) -> int:
    if not text.isdigit() or (text[0] == "0" and text != "0") or not low <= int(text) <= high:
        raise BadScript(f"number {text}")
    return int(text)


def who(text: str, table: int) -> object:
    if text in ("last", "made"):
        return text
    if not text.startswith("#"):
        raise BadScript(f"who {text}")
    return number(text[1:], 0, table - 1)


def value(text: str) -> object:
    return text if text in ("got0", "got1") else number(text, 0, 4_294_967_295)


def operation(words: list, script: Script) -> Operation:
    kind, rest = words[0], words[1:]
    zero = False
    shape = {"send": 3, "call": 3, "reply": 2, "receive": 1, "wait": 0}.get(kind)
    if shape is not None and len(rest) == shape + 1 and rest[-1] == "now":
        zero, rest = True, rest[:-1]
    count = shape if shape is not None else {"create": 2, "destroy": 1, "work": 1, "repeat": 1, "again": 0}.get(kind)
    if count is None or len(rest) != count:
        raise BadScript(" ".join(words))
    match kind:
        case "send" | "call":
            return Operation(kind, who(rest[0], script.table), value(rest[1]), value(rest[2]), zero)
        case "reply":
            return Operation(kind, None, value(rest[0]), value(rest[1]), zero)
        case "receive":
            return Operation(kind, who(rest[0], script.table), zero=zero)
        case "create":
            return Operation(kind, program=program_of(rest[0], script), priority=number(rest[1], 0, 63))
        case "destroy":
            return Operation(kind, who(rest[0], script.table))
        case "work":
            return Operation(kind, count=number(rest[0], 1, 4_294_967_295))
        case "repeat":
            return Operation(kind, count=number(rest[0], 1, 65_535))
    return Operation(kind, zero=zero)


def program_of(name: str, script: Script) -> int:
    for index, program in enumerate(script.programs):
        if program.name == name:
            return index
    raise BadScript(f"program {name}")


def read(text: str) -> Script:
    script = Script()
    lines = [(n, line.split(";")[0].split()) for n, line in enumerate(text.split("\n"), 1)]
    lines = [(n, words) for n, words in lines if words]
    if not lines or lines[0][1] not in (["kernel", "1"], ["kernel", "2"]):
        raise BadScript("version")
    script.version = int(lines[0][1][1])
    reader = Reader(script)
    for n, words in lines[1:]:
        try:
            reader.line(words)
        except BadScript as fault:
            raise BadScript(f"refused line {n} {fault}") from None
    if reader.open_program is not None or not script.table or not script.threads:
        raise BadScript("end")
    weight = script.weight()
    if weight > LONGEST:
        raise TooLong(weight)
    return script


class Reader:
    def __init__(self, script: Script):
        self.script = script
        self.open_program: Optional[Program] = None
        self.depth = 0

    def line(self, words: list) -> None:
        script, kind, rest = self.script, words[0], words[1:]
        if self.open_program is not None:
            self.program_line(words)
            return
        match kind:
            case "table":
                script.table = number(rest[0], 1, 64)
            case "carriers":
                script.carriers = number(rest[0], 1, 8)
            case "show":
                script.show_steps = True
            case "aged":
                script.aged[number(rest[0], 0, script.table - 1)] = number(rest[1], 1, 1_048_575)
            case "program":
                self.open_program = Program(rest[0])
            case "thread":
                if len(script.threads) == script.table or len(script.threads) in script.aged:
                    raise BadScript("table")
                script.threads.append(ThreadLine(number(rest[0], 0, 63), program_of(rest[1], script)))
            case "at":
                self.at_line(rest)
            case "turns":
                if script.carriers == 1 or not script.threads:
                    raise BadScript("order")
                for item in rest:
                    self.item(item)
            case _:
                raise BadScript(" ".join(words))

    def program_line(self, words: list) -> None:
        if words == ["end"] and self.depth == 0:
            self.script.programs.append(self.open_program)
            self.open_program = None
            return
        self.depth += (words[0] == "repeat") - (words[0] == "again")
        if words[0] == "end" or not 0 <= self.depth <= 4:
            raise BadScript("nest")
        self.open_program.operations.append(operation(words, self.script))

    def at_line(self, rest: list) -> None:
        script = self.script
        limit = len(script.threads) if rest[1] == "start" else script.carriers
        line = AtLine(number(rest[0], 0, 4_294_967_295), rest[1], number(rest[2], 0, limit - 1))
        if script.at_lines and line.step < script.at_lines[-1].step:
            raise BadScript("order")
        script.at_lines.append(line)

    def item(self, item: str) -> None:
        last = self.script.carriers - 1
        if item.endswith("!"):
            self.script.turns.append(Item(number(item[:-1], 0, last), None))
        else:
            carrier, count = item.split("*")
            self.script.turns.append(Item(number(carrier, 0, last), number(count, 1, 1_000_000)))
