"""Small scripts of two or three carriers with turns of few steps, chosen for what they meet: answers that come seldom."""

import sys
from pathlib import Path

sys.path.insert(0, str(Path(__file__).resolve().parent.parent / "tests" / "reference"))

from fuzz import Maker  # noqa: E402
from schedule import Schedule  # noqa: E402
from script import TooLong, read  # noqa: E402


class TightMaker(Maker):
    def turns(self, carriers: int) -> list:
        lines = []
        for _ in range(1 + self.random.randrange(3)):
            items = []
            for _ in range(20 + self.random.randrange(60)):
                carrier = self.random.randrange(carriers)
                longest = self.pick([1, 1, 2, 3, 9])
                items.append(f"{carrier}!" if self.one_in(6) else f"{carrier}*{1 + self.random.randrange(longest)}")
            lines.append("turns " + " ".join(items))
        return lines

    def script(self) -> str:
        self.table = self.pick([2, 3, 3, 4])
        carriers = self.pick([2, 2, 3])
        lines = [f"kernel {self.pick([1, 2, 2])}", f"table {self.table}", f"carriers {carriers}", "show steps"]
        self.threads = self.table
        roles = ["server", "server", "client", "client", "killer", "killer", "mixed"]
        self.roles = [self.pick(roles) for _ in range(self.threads)]
        for index in range(self.threads):
            self.me = index
            lines += self.program(f"p{index}")
            self.programs.append(f"p{index}")
        for index in range(self.threads):
            lines.append(f"thread {self.random.randrange(3) * 20} p{index}")
        lines += self.at_lines(carriers)
        lines += self.turns(carriers)
        return "\n".join(lines) + "\n"


def script_of(seed: int) -> str:
    for again in range(1000):
        text = TightMaker(seed * 1000 + again).script()
        try:
            if read(text).weight() <= 20_000:
                return text
        except TooLong:
            continue
    raise AssertionError("no small script")


def kinds_of(text: str) -> set:
    """Which locations had which answers."""
    kinds: set = set()
    schedule = Schedule(read(text))
    world = schedule.world
    world.tracing = True

    def watch(_, events) -> None:
        record = world.record
        place = record.place or type(record.move).__name__
        answer = str(record.answer).split(" ")[0]
        if answer == "loaded" and record.word[0] == "state" and record.answer.value % 8 == 0:
            answer = "dead"
        kinds.add((place, answer, record.stepped.kind))

    schedule.watch = watch
    schedule.run()
    return kinds


def chosen(first: int, count: int, each: int) -> list:
    """Of these scripts, those that meet something that fewer than `each` scripts before have met."""
    met: dict = {}
    scripts = []
    for seed in range(first, first + count):
        text = script_of(seed)
        kinds = kinds_of(text)
        if any(met.get(kind, 0) < each for kind in kinds):
            scripts.append((f"rare {seed}", text))
            for kind in kinds:
                met[kind] = met.get(kind, 0) + 1
    for kind in sorted(met, key=lambda kind: met[kind])[:25]:
        print(f"  {' '.join(kind)}: {met[kind]} scripts")
    print(f"  {len(met)} kinds, {len(scripts)} scripts")
    return scripts
