"""Generated scripts with larger tables, more threads, longer queues, and up to eight carriers."""

import sys
from pathlib import Path

sys.path.insert(0, str(Path(__file__).resolve().parent.parent / "tests" / "reference"))

from fuzz import Maker  # noqa: E402
from script import TooLong, read  # noqa: E402

MOST_STEPS = 60_000


class WideMaker(Maker):
    def script(self) -> str:
        self.table = self.pick([6, 8, 12, 16, 24, 40, 64])
        carriers = self.pick([1, 2, 4, 6, 8])
        lines = [f"kernel {self.pick([1, 2])}", f"table {self.table}"]
        if carriers > 1:
            lines.append(f"carriers {carriers}")
        if self.one_in(2):
            lines.append("show steps")
        self.threads = max(2, self.table - self.pick([0, 0, 1, 2, 5]))
        for number in range(self.threads, self.table):
            if self.one_in(3):
                lines.append(f"aged {number} {self.pick([1, 7, 1048574, 1048575])}")
        roles = ["server", "server", "client", "client", "client", "client", "killer", "mixed"]
        self.roles = [self.pick(roles) for _ in range(self.threads)]
        for index in range(self.threads):
            self.me = index
            lines += self.program(f"p{index}")
            self.programs.append(f"p{index}")
        flat = self.one_in(3)
        for index in range(self.threads):
            name = self.pick(self.programs) if self.one_in(6) else f"p{index}"
            priority = 60 if index in self.killers and self.one_in(2) else self.random.randrange(64)
            lines.append(f"thread {7 if flat else priority} {name}")
        lines += self.at_lines(carriers)
        if carriers > 1:
            lines += self.turns(carriers)
        return "\n".join(lines) + "\n"


def script_of(seed: int) -> str:
    for again in range(1000):
        text = WideMaker(seed * 1000 + again).script()
        try:
            if read(text).weight() <= MOST_STEPS:
                return text
        except TooLong:
            continue
    raise AssertionError("no small script")
