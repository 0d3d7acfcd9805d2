"""Small good scripts made from a number, run and checked.

    python3 fuzz.py FIRST COUNT [--deep] [--show] [--cover] [--write FILE]

Runs the scripts of the numbers FIRST, FIRST + 1 and so on.

    --deep        what the words show is compared after each step with the kernel that makes one event at a time
    --show        prints each script with its report
    --cover       counts the locations with their answers
    --write FILE  puts a line of JSON into FILE for each script: its number, its text, the report, and the SHA-256 of
                  its JSON trace (the lines of `run.py --json`, each with its line feed)
"""

import hashlib
import json
import random
import sys
import time
import traceback

import traces
from checks import Watch
from report import report
from schedule import Schedule
from script import TooLong, read

MOST_STEPS = 20_000


class Maker:
    """Most programs are made for one thread, and name others rather than that thread."""

    def __init__(self, seed: int):
        self.random = random.Random(seed)
        self.table = 1
        self.me = 0
        self.threads = 1
        self.programs: list = []
        self.roles: list = []
        self.killers: set = set()  # threads that come late, with a high priority, and destroy

    def one_in(self, n: int) -> bool:
        return self.random.randrange(n) == 0

    def pick(self, choices: list):
        return self.random.choice(choices)

    def who(self) -> str:
        if self.one_in(6):
            return self.pick(["last", "last", "made"])
        if self.one_in(12):
            return f"#{self.random.randrange(self.table)}"
        others = [t for t in range(self.threads) if t != self.me]
        servers = [t for t in others if self.roles[t] == "server"]
        if servers and not self.one_in(3):
            return f"#{self.pick(servers)}"
        return f"#{self.pick(others) if others else self.random.randrange(self.table)}"

    def value(self) -> str:
        return self.pick(["got0", "got1", str(self.random.randrange(10)), "4294967295"])

    def now(self, chance: int) -> str:
        return " now" if self.one_in(chance) else ""

    def operation(self) -> str:
        kinds = ["send"] * 6 + ["call"] * 6 + ["reply"] * 2 + ["wait"] * 8 + ["receive"] * 3
        kinds += ["destroy"] * 3 + ["create"] * 2 + ["work"]
        kind = self.pick(kinds)
        match kind:
            case "send" | "call":
                return f"{kind} {self.who()} {self.value()} {self.value()}{self.now(4)}"
            case "reply":
                return f"reply {self.value()} {self.value()}{self.now(3)}"
            case "wait":
                return f"wait{self.now(8)}"
            case "receive":
                return f"receive {self.who()}{self.now(8)}"
            case "destroy":
                return f"destroy {self.who()}"
            case "create" if self.programs:
                return f"create {self.pick(self.programs)} {self.random.randrange(4) * 20}"
        return f"work {1 + self.random.randrange(5)}"

    def body(self, length: int, depth: int) -> list:
        lines: list = []
        while length > 0:
            if depth < 2 and self.one_in(7):
                inner = self.body(self.random.randrange(3), depth + 1)
                lines += [f"repeat {1 + self.random.randrange(3)}"] + inner + ["again"]
            else:
                lines.append(self.operation())
            length -= 1
        return lines

    def program(self, name: str) -> list:
        match self.roles[self.me]:
            case "server":
                turns = 1 + self.random.randrange(4)
                body = ["wait", f"repeat {turns}", f"reply got0 got1{self.now(2)}", "again"]
            case "client":
                kinds = [self.pick(["call", "call", "send"]) for _ in range(1 + self.random.randrange(3))]
                body = [f"{kind} {self.who()} {self.value()} {self.value()}{self.now(5)}" for kind in kinds]
            case "killer":
                self.killers.add(self.me)
                body = [f"destroy {self.who()}"]
                if self.programs:
                    body.append(f"create {self.pick(self.programs)} {self.random.randrange(4) * 20}")
                    body += [self.pick([f"destroy {self.who()}", "destroy made", "call made 1 2", "wait", "receive made"])]
            case _:
                body = self.body(1 + self.random.randrange(5), 0)
        return [f"program {name}"] + body + ["end"]

    def at_lines(self, carriers: int) -> list:
        reach = self.pick([20, 40, 80, 160])
        lines = []
        for number in range(self.threads):
            if not self.one_in(3) if number in self.killers else self.one_in(6):
                lines.append((self.random.randrange(reach), f"start {number}"))
        for _ in range(self.random.randrange(5)):
            lines.append((self.random.randrange(reach), f"slice {self.random.randrange(carriers)}"))
        return [f"at {step} {what}" for step, what in sorted(lines)]

    def turns(self, carriers: int) -> list:
        lines = []
        longest = self.pick([1, 2, 4, 8, 16])
        for _ in range(self.random.randrange(4)):
            items = []
            for _ in range(1 + self.random.randrange(20 + 60 // longest)):
                carrier = self.random.randrange(carriers)
                items.append(f"{carrier}!" if self.one_in(8) else f"{carrier}*{1 + self.random.randrange(longest)}")
            lines.append("turns " + " ".join(items))
        return lines

    def script(self) -> str:
        self.table = self.pick([2, 2, 3, 3, 3, 4, 4, 4, 5, 5, 1 + self.random.randrange(5)])
        carriers = self.pick([1, 1, 2, 3])
        lines = [f"kernel {self.pick([1, 2])}", f"table {self.table}"]
        if carriers > 1:
            lines.append(f"carriers {carriers}")
        lines.append("show steps")
        self.threads = max(1 if self.one_in(8) else min(2, self.table), self.table - self.pick([0, 0, 0, 1, 1, 2]))
        for number in range(self.threads, self.table):
            if self.one_in(4):
                lines.append(f"aged {number} {self.pick([1, 7, 1048574, 1048575])}")
        roles = ["server", "server", "server", "client", "client", "client", "killer", "killer", "mixed", "mixed"]
        self.roles = [self.pick(roles) for _ in range(self.threads)]
        for index in range(self.threads):
            self.me = index
            lines += self.program(f"p{index}")
            self.programs.append(f"p{index}")
        for index in range(self.threads):
            name = self.pick(self.programs) if self.one_in(6) else f"p{index}"
            priority = 60 if index in self.killers and self.one_in(2) else self.random.randrange(4) * 20
            lines.append(f"thread {priority} {name}")
        lines += self.at_lines(carriers)
        if carriers > 1:
            lines += self.turns(carriers)
        return "\n".join(lines) + "\n"


def script_of(seed: int) -> str:
    """The first script of this number that isn't too large."""
    for again in range(1000):
        text = Maker(seed * 1000 + again).script()
        try:
            if read(text).weight() <= MOST_STEPS:
                return text
        except TooLong:
            continue
    raise AssertionError("no small script")


def run_checked(text: str, deep: bool, digest=None, cover=None):
    script = read(text)
    watch = Watch(script, deep)

    def step(world, events) -> None:
        watch.step(world, events)
        if cover is not None:
            record = world.record
            place = record.place or type(record.move).__name__
            kind = f"{place} {str(record.answer).split(' ')[0]} {record.stepped.kind}"
            cover[kind] = cover.get(kind, 0) + 1
        if digest is not None:
            digest.update((traces.json_line(world, world.record, events) + "\n").encode())

    schedule = Schedule(script, step)
    schedule.world.tracing = digest is not None or cover is not None
    world = schedule.run()
    watch.end(world)
    return world


def main(words: list) -> int:
    first, count = int(words[0]), int(words[1])
    out = open(words[words.index("--write") + 1], "w") if "--write" in words else None
    begun, steps, failed = time.perf_counter(), 0, 0
    counts: dict = {}
    cover: dict | None = {} if "--cover" in words else None
    for seed in range(first, first + count):
        text = script_of(seed)
        digest = hashlib.sha256() if out else None
        try:
            world = run_checked(text, "--deep" in words, digest, cover)
        except Exception:
            failed += 1
            print(f"FAILED {seed}\n{text}")
            traceback.print_exc(limit=-4, file=sys.stdout)
            continue
        steps += world.made
        for mark in world.waits:
            kind = ("got" if mark.got else "broken") + f" {mark.wants.split(' ')[0]} chain {len(mark.links)}"
            counts[kind] = counts.get(kind, 0) + 1
        for entry in world.history:
            kind = f"{type(entry.act).__name__} {entry.outcome.kind}"
            counts[kind] = counts.get(kind, 0) + 1
        if "--show" in words:
            print(f"; {seed}\n{text}{report(world)}")
        if out:
            fields = {"number": seed, "script": text, "report": report(world), "trace": digest.hexdigest()}
            out.write(json.dumps(fields, separators=(",", ":")) + "\n")
    print(f"{count} scripts, {steps} steps, {failed} failed, {time.perf_counter() - begun:.1f} s")
    for table in (counts, cover or {}):
        for kind in sorted(table):
            print(f"  {kind}: {table[kind]}")
    return failed


if __name__ == "__main__":
    sys.exit(main(sys.argv[1:]))
