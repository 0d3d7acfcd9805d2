"""The schedule of a script: boot, `at` lines, turns and the tail."""

from typing import Callable, Optional

from world import World


class Schedule:
    """`watch` is called after each atomic step, with the events that were made before it."""

    def __init__(self, script, watch: Optional[Callable] = None):
        self.script, self.watch = script, watch
        self.world = World(script)
        self.next_line = 0
        self.events: list = []

    def lines_left(self) -> bool:
        return self.next_line < len(self.script.at_lines)

    def make_line(self, c: int) -> None:
        line = self.script.at_lines[self.next_line]
        self.next_line += 1
        if line.what == "start":
            self.world.start(c, line.number)
            self.events.append(f"start {line.number} c{c}")
        else:
            self.world.slice(line.number)
            self.events.append(f"slice {line.number}")

    def step(self, c: int) -> str:
        lines = self.script.at_lines
        while self.lines_left() and lines[self.next_line].step == self.world.made:
            self.make_line(c)
        stepped = self.world.step(c)
        if self.watch is not None:
            self.watch(self.world, self.events)
        self.events = []
        return stepped.kind

    def park(self, c: int) -> None:
        """Nothing happens where the carrier has nothing in hand."""
        if self.world.carriers[c].hand is not None:
            self.world.park(c)
            self.events.append(f"park {c}")
            self.step(c)

    def run(self) -> World:
        for item in self.script.turns:
            if item.count is None:
                self.park(item.carrier)
            else:
                for _ in range(item.count):
                    self.step(item.carrier)
        self.tail()
        return self.world

    def tail(self) -> None:
        world, count = self.world, len(self.world.carriers)
        for c in range(count):
            self.park(c)
        c = 0
        while True:
            last = self.step(c)
            while not world.carriers[c].settled():
                last = self.step(c)
            if last == "idle":
                if self.lines_left():
                    least = self.script.at_lines[self.next_line].step
                    while self.lines_left() and self.script.at_lines[self.next_line].step == least:
                        self.make_line(c)
                    continue
                if all(carrier.settled() for carrier in world.carriers):
                    return
            c = (c + 1) % count


def run(script, watch: Optional[Callable] = None) -> World:
    return Schedule(script, watch).run()
